"""Numbers for the generator: those at the ends of 32 and 64 bits, and dice that fall alike on every machine."""
I32_MIN, I32_MAX = -(2**31), 2**31 - 1
I64_MIN, I64_MAX = -(2**63), 2**63 - 1


class Dice:
    """Numbers that look random, by Knuth's 64-bit linear congruential generator."""

    def __init__(self, seed):
        self.state = seed

    def between(self, low, high):
        """A number from LOW to HIGH, at most 2^32 of them."""
        self.state = (self.state * 6364136223846793005 + 1442695040888963407) % 2**64
        return low + (self.state >> 32) % (high - low + 1)

    def up_to_any_size(self, highest):
        """A number from 1 to HIGHEST, the small sizes as often as the large ones."""
        return self.between(1, min(highest, 2 ** self.between(0, highest.bit_length() - 1)))

    def pick(self, *things):
        """One of these."""
        return things[self.between(0, len(things) - 1)]
