"""Tables on which the program and the reference are compared: three lists, and the slopes built from two of them.

Every build is followed by a look at the slope list, so that what a refused build leaves there is compared too.
"""
from itertools import accumulate, combinations, cycle, islice, product
from math import gcd

from dice import Dice, I32_MAX, I32_MIN
from reference import FIRST_S, LARGEST_RISE, WIDEST, unit

NAMES = (b"knots", b"values", b"slopes")
SHOW_ALL = tuple(b"show " + name for name in NAMES)
BUILD_AND_SHOW = (b"build", b"show slopes")
BUILD_AND_SHOW_ALL = (b"build", *SHOW_ALL)


def row(name, numbers):
    """A line that sets a list."""
    return b" ".join([name, *(b"%d" % number for number in numbers)])


def knots(numbers):
    """Lines that set the knots and build."""
    return row(b"knots", numbers), *BUILD_AND_SHOW


def values(numbers):
    """Lines that set the values and build."""
    return row(b"values", numbers), *BUILD_AND_SHOW


def slopes(numbers):
    """Lines that set the slopes and build."""
    return row(b"slopes", numbers), *BUILD_AND_SHOW


def digits(count):
    """So many numbers that are short to write: old slopes, or rows of which only the length matters."""
    return [place % 9 + 1 for place in range(count)]


def points(knot_row, value_row):
    """Lines that set a table over old slopes, and build."""
    yield row(b"knots", knot_row)
    yield row(b"values", value_row)
    yield from slopes(digits(len(knot_row)))


def sums(steps, first=0):
    """Numbers with these differences."""
    return list(accumulate(steps, initial=first))


def somewhere(dice, steps):
    """Numbers with these differences, anywhere in 32 bits."""
    lowest, highest = min(sums(steps)), max(sums(steps))
    return sums(steps, dice.between(I32_MIN - lowest, I32_MAX - highest))


def wave(count):
    """Values of one digit that rise, fall and rest."""
    return sums(islice(cycle((1, 2, 3, 1, -1, -2, -3, -1, 0)), count - 1)) if count else []


def with_step(steps, place, step):
    """The same differences but for one."""
    return [*steps[:place], step, *steps[place + 1 :]]


# ---- small tables, and their lengths


def figures():
    yield from points((0, 1, 2), (0, 1, 4))
    yield from points((0, 1, 3), (0, 1, 2))
    yield from points((0, 3), (0, -10))
    yield from points((0, 1, 2, 3), (0, 1, 4, 7))
    yield from points((I32_MAX, I32_MIN), (0, 0))
    yield from points((I32_MIN, I32_MAX), (0, 0))


def small_counts():
    for count in (0, 1, 2, 3, 4, 5, 16, 128):
        yield from points(range(count), wave(count))
        yield from BUILD_AND_SHOW_ALL


def unequal_lengths():
    """Each list of each length from 0 to 3: with good numbers, with bad widths, with bad rises, and with both."""
    for knot_row, value_row in product(((0, 1, 2), (0, 0, 0)), ((0, 1, 4), (0, 1048577, 0))):
        for knot_count, value_count in product(range(4), repeat=2):
            yield row(b"knots", knot_row[:knot_count])
            yield row(b"values", value_row[:value_count])
            for slope_count in range(4):
                yield from slopes(digits(slope_count))


def one_length_differs():
    """One list of a good table a number longer or shorter, or empty, and the table again."""
    good = {b"knots": list(range(5)), b"values": wave(5), b"slopes": digits(5)}
    for name, numbers in good.items():
        for other in (numbers + [4], numbers[:-1], []):
            yield from (row(*entry) for entry in good.items())
            yield row(name, other)
            yield from BUILD_AND_SHOW_ALL
            yield row(name, numbers)
            yield from BUILD_AND_SHOW_ALL


# ---- large tables, each group over the lists that the one before it leaves


def most_points():
    """1023 points, then 1024: one list after the other, so that only the last of each three makes a table."""
    for count in (1023, 1024):
        yield from slopes(digits(count))
        yield from values(wave(count))
        yield from knots(range(count))


def far_faults():
    """Faults far into those 1024 points. The rises are asked after the last width."""
    widths, flat = [1] * 1023, [5] * 1024
    yield from values(flat[:-1] + [1048582])
    yield from values(flat[:257] + [-1048572] + flat[258:])
    yield from knots(sums(with_step(widths, 1022, 0)))
    yield from knots(sums(with_step(with_step(widths, 1022, 0), 511, 1025)))
    yield from values(wave(1024))


def by_chance_of_many(dice):
    """Knots and values of 1024 points, with runs of rises and of falls."""
    widths = [dice.up_to_any_size(WIDEST) for _ in range(1023)]
    rises = [(-1) ** (place // 7) * dice.up_to_any_size(LARGEST_RISE) for place in range(1023)]
    return sums(widths), sums(rises)


def large_by_chance():
    knot_row, value_row = by_chance_of_many(Dice(11))
    yield from knots(knot_row)
    yield from values(value_row)


def too_many_points():
    """1025 points, then 1026. The lengths are asked before the count, and the count before the widths."""
    yield from slopes(digits(1025))
    yield from values(wave(1025))
    yield from knots(range(1025))
    yield from slopes(digits(1026))
    yield from values(wave(1026))
    yield from knots([0] * 1026)
    yield from slopes(digits(5))
    yield from slopes([])


# ---- faults in the table


# Some would be good widths if they were looked at in 32 or in 16 bits, or without their sign.
BAD_WIDTHS = (
    0, -1, 1025, 1026, 2048, -1024, -1025, 65536, 65537, 65536 + 1024, -65535, 2**31, -(2**31),
    -(2**32) + 1, -(2**32) + 2, -(2**32) + 1024, -(2**32) + 1025,
)
# All of the last six would be good rises in 32 bits.
BAD_RISES = (
    1048577, -1048577, 2097152, -2097152, 2**24, 2**31 - 1, -(2**31), 2**31,
    2**32 - 1, -(2**32) + 1, 2**32 - 2, 2**32 - 1048576, -(2**32) + 1048576, -(2**32) + 2,
)
FIVE_WIDTHS = (3, 1, 4, 1, 5)
FIVE_RISES = (2, 7, 1, -8, 2)
TEN_WIDTHS = (*FIVE_WIDTHS, 9, 2, 6, 5, 3)
TEN_RISES = (*FIVE_RISES, 8, -1, -8, -2, -8)


def bad_widths():
    dice = Dice(5)
    yield from points(sums(FIVE_WIDTHS), sums(FIVE_RISES))
    for width in BAD_WIDTHS:
        for place in (0, 2, 4):
            yield from knots(somewhere(dice, with_step(FIVE_WIDTHS, place, width)))
    yield from points(sums(TEN_WIDTHS), sums(TEN_RISES))
    for place in range(10):
        yield from knots(sums(with_step(TEN_WIDTHS, place, 0)))
        yield from knots(sums(with_step(TEN_WIDTHS, place, 1024)))


def bad_rises():
    dice = Dice(6)
    yield from points(sums(FIVE_WIDTHS), sums(FIVE_RISES))
    for rise in BAD_RISES:
        # The others go the other way, so that there is room for the bad one in 32 bits.
        others = [-abs(other) if rise > 0 else abs(other) for other in FIVE_RISES]
        for place in (0, 2, 4):
            yield from values(somewhere(dice, with_step(others, place, rise)))
    yield from points(sums(TEN_WIDTHS), sums(TEN_RISES))
    for place in range(10):
        for rise in (1048577, 1048576, -1048577, -1048576):
            yield from values(sums(with_step(TEN_RISES, place, rise)))


def bad_widths_and_rises():
    """A bad width and a bad rise at each two of some places: the width is named, wherever it is."""
    yield from points(sums(TEN_WIDTHS), sums(TEN_RISES))
    for width_place in (0, 1, 5, 9):
        yield row(b"knots", sums(with_step(TEN_WIDTHS, width_place, 1025)))
        for rise_place in (0, 1, 5, 9):
            yield from values(sums(with_step(TEN_RISES, rise_place, -1048577)))


def several_faults():
    """Two faults of one kind, each two of some kinds and places: the first is named. Then nothing but faults."""
    yield from points(sums(TEN_WIDTHS), sums(TEN_RISES))
    for first, second in combinations((0, 1, 5, 8, 9), 2):
        for bad, worse in ((0, 1025), (1025, 0), (-1, -1)):
            yield from knots(sums(with_step(with_step(TEN_WIDTHS, first, bad), second, worse)))
    yield from knots(sums(TEN_WIDTHS))
    for first, second in combinations((0, 1, 5, 8, 9), 2):
        for bad, worse in ((1048577, -1048577), (-1048577, 1048577)):
            yield from values(sums(with_step(with_step(TEN_RISES, first, bad), second, worse)))
    yield from values([0, 2000000] * 5 + [0])
    yield from knots([0] * 11)
    yield from values(sums(TEN_RISES))


def wrapped_differences():
    """Pairs far apart in 32 bits, and near. The differences of many would be good ones if they wrapped."""
    ends = (I32_MIN, I32_MIN + 1, I32_MIN + 1023, -1, 0, I32_MAX - 1023, I32_MAX - 1, I32_MAX)
    yield from points((0, 1), (0, 1))
    for left, right in product(ends, repeat=2):
        yield from knots((left, right))
    yield row(b"knots", (0, 1))
    for left, right in product(ends, repeat=2):
        yield from values((left, right))


# ---- slopes at their limits, and where rounding is seen


def two_points():
    """Tables of two points, many falling: rounding down would be seen."""
    yield row(b"slopes", digits(2))
    for width in (1, 2, 3, 255, 256, 257, WIDEST - 1, WIDEST):
        yield row(b"knots", (0, width))
        for rise in (0, 1, 3, 4, 5, 1000, LARGEST_RISE - 1, LARGEST_RISE):
            yield from values((0, rise))
            yield from values((0, -rise))


def two_ends():
    """Both ends of a table: each by its own piece, and by the one beside that."""
    for widths in ((2, 7), (7, 2), (2, 1, 7), (7, 5, 2)):
        yield row(b"knots", sums(widths))
        yield row(b"slopes", digits(len(widths) + 1))
        for left, right in product((-5, -1, 2), repeat=2):
            yield from values(sums((left, *[0] * (len(widths) - 2), right)))


def signs():
    """Every two signs of rises at an inner point, zero too."""
    for widths in ((1, 1), (1, 2), (2, 1)):
        yield row(b"knots", sums(widths))
        yield row(b"slopes", digits(3))
        for rises in product((-3, -1, 0, 1, 3), repeat=2):
            yield from values(sums(rises))


def every_two(kinds):
    """The kinds in a row in which every two of them, in both orders, somewhere follow one another."""
    in_row = []
    for place, kind in enumerate(kinds):
        in_row.append(kind)
        for other in kinds[place + 1 :]:
            in_row += [kind, other]
    return in_row + in_row[:1]


def table_of(pieces):
    widths, rises = zip(*pieces)
    return points(sums(widths), sums(rises))


# Pieces of which every two are set side by side, in one table with so many inner points, as each of these depends on its two pieces alone.
AT_THE_LIMITS = every_two(list(product((1, 2, WIDEST), (0, 1, -1, LARGEST_RISE, -LARGEST_RISE))))
SOME_OTHERS = every_two(list(product((3, 1023), (2, 5, 999, 1048575, -3, -100, -65537))))


def neighbours_at_the_limits():
    yield from table_of(AT_THE_LIMITS)


def neighbours():
    yield from table_of(SOME_OTHERS)


def greatest_slopes():
    for sign in (1, -1):
        yield from points(range(5), sums([sign * LARGEST_RISE] * 4))
        for widths in ((1, WIDEST), (WIDEST, 1), (WIDEST, WIDEST), (1, 2), (2, 1)):
            yield from points(sums(widths), sums([sign * LARGEST_RISE] * 2))
            yield from points(sums(widths), sums([sign * LARGEST_RISE, sign]))
            yield from points(sums(widths), sums([sign, sign * LARGEST_RISE]))


def rounded(over, under):
    """A quotient rounded down, and where it was: whole, just above a whole number, just below, or None of these."""
    whole, rest = divmod(over, under)
    return whole, "whole" if rest == 0 else {0: "above", 999: "below"}.get(1000 * rest // under)


def inner_quotient(s, h1, z1, h2, z2):
    """Document 01's quotient at an inner point, as its two sides."""
    return 3 * unit(s) * (h1 + h2) * z1 * z2, h1 * z2 * (h1 + 2 * h2) + h2 * z1 * (2 * h1 + h2)


def inner_pieces_to_round(s, dice, of_each):
    """Two pieces each, as h1, z1, h2, z2, whose quotient is whole, or just above a whole number, or just below: so many of each kind."""
    wanted = {"whole": of_each, "above": of_each, "below": of_each}
    while any(wanted.values()):
        h1, h2 = dice.up_to_any_size(WIDEST), dice.up_to_any_size(WIDEST)
        z1, z2 = dice.up_to_any_size(LARGEST_RISE), dice.up_to_any_size(LARGEST_RISE)
        whole, where = rounded(*inner_quotient(s, h1, z1, h2, z2))
        if h1 == h2 or z1 * h2 == z2 * h1 or whole == 0:
            continue  # whole for too plain a reason, or nothing to round
        if wanted.get(where):
            wanted[where] -= 1
            yield h1, z1, h2, z2


def inner_rounding():
    """Inner points at such pieces, rising and falling."""
    for h1, z1, h2, z2 in inner_pieces_to_round(FIRST_S, Dice(7), 12):
        yield from points((0, h1, h1 + h2), (0, z1, z1 + z2))
        yield from values((0, -z1, -z1 - z2))


# Two pieces each, as h1, z1, h2, z2, whose quotient is so near below a whole number that 64-bit floats round it up.
PAST_FLOATS = (
    (55, 1016176, 9, 1008466),
    (71, 890691, 37, 1016134),
    (110, 981857, 75, 912587),
    (163, 897653, 174, 911627),
    (166, 1031308, 147, 1022852),
)


def inner_past_floats():
    for h1, z1, h2, z2 in PAST_FLOATS:
        yield from points((0, h1, h1 + h2), (0, z1, z1 + z2))
        yield from values((0, -z1, -z1 - z2))


def in_both_orders():
    """Inner points with pieces of unequal width, and the same turned round: the weights must not change sides."""
    dice = Dice(8)
    for _ in range(24):
        h1, h2 = dice.up_to_any_size(WIDEST), dice.up_to_any_size(WIDEST)
        z1, z2 = dice.up_to_any_size(LARGEST_RISE), dice.up_to_any_size(LARGEST_RISE)
        yield from points((0, h1, h1 + h2), (0, z1, z1 + z2))
        yield from knots((0, h2, h1 + h2))
        yield from values((0, z2, z1 + z2))
        yield from values((0, -z2, -z1 - z2))


def ends_of_32_bits():
    for widths, rises in (
        ((1, 2, 3), (1, 2, 3)),
        ((1024, 1, 1024), (1048576, 1048576, 1)),
        ((5, 1024, 7), (0, 1, 1048576)),
    ):
        falls = [-rise for rise in rises]
        for first_knot in (I32_MIN, -1, -sum(widths), I32_MAX - sum(widths)):
            yield from points(sums(widths, first_knot), sums(rises, I32_MIN))
            yield from values(sums(falls, I32_MAX))
            yield from values(sums(rises, I32_MAX - sum(rises)))
            yield from values(sums(falls, I32_MIN + sum(rises)))


# ---- the ends of three points and more, by request 2


def at_both_ends(h1, h2, rises):
    """Lines that build tables of two pieces of these widths, with each two of these rises and with their opposites, in both orders."""
    for order in (1, -1):
        yield row(b"knots", sums((h1, h2)[::order]))
        for pair, sign in product(rises, (1, -1)):
            yield from values(sums([sign * rise for rise in pair[::order]]))


def end_figures():
    """Tables at the borders of the rule, and then end pieces with neighbours that let a slip be seen, on the left and on the right."""
    for widths, rises in (
        ((1, 1), (1, -2)), ((1, 1), (1, -3)), ((1, 1), (1, -4)), ((1, 1), (0, 1)), ((1, 1), (1, 4)), ((1, 2), (-1, -1)),
        ((3, 1), (1, -10)), ((2, 1), (1, -10)), ((1024, 1024), (1, 1)), ((1, 1), (1048576, -1048576)),
        ((1, 1), (349525, -1048576)), ((1, 1, 1), (1, 3, -1)), ((1, 1, 1), (1, 0, 0)),
    ):
        yield from points(sums(widths), sums(rises))
    yield row(b"slopes", digits(3))
    for h1, z1, h2, z2 in (
        (1, -2, 2, -2), (2, -1, 1, 2), (3, -2, 1, 2), (2, -1, 3, -2), (1, 0, 1, -1), (1, -1, 1, 1), (2, -2, 1, 3),
    ):
        for order in (1, -1):
            yield row(b"knots", sums((h1, h2)[::order]))
            yield from values(sums((z1, z2)[::order]))


def at_the_borders(h1, h2):
    """The least rises of an end piece and its neighbour with which the quotient is 0, and those with which it is its bound.

    The first have (2*h1 + h2)*h2*z1 = h1*h1*z2, the others (h1 + 2*h2)*h2*z1 = -h1*h1*z2. Those outside the limits are left out.
    """
    for factor, sign in (((2 * h1 + h2) * h2, 1), ((h1 + 2 * h2) * h2, -1)):
        common = gcd(h1 * h1, factor)
        z1, z2 = h1 * h1 // common, sign * factor // common
        if max(z1, abs(z2)) <= LARGEST_RISE:
            yield z1, z2


def end_borders():
    """Such rises, as great as they can be, and the neighbour's one less and one more."""
    yield row(b"slopes", digits(3))
    for h1, h2 in ((1, 1), (7, 5), (1020, 96), (WIDEST, 1), (WIDEST, WIDEST)):
        for z1, z2 in at_the_borders(h1, h2):
            most = min(LARGEST_RISE // z1, (LARGEST_RISE - 1) // abs(z2))
            yield from at_both_ends(h1, h2, [(most * z1, most * z2 + step) for step in (-1, 0, 1)])


def bounded_ends():
    """Ends at their bound, which is rounded once: not a whole number of values, and not three times the rounded secant."""
    yield row(b"slopes", digits(3))
    for width, rise in ((3, 1), (7, 5), (300, 1), (1023, 999), (1021, LARGEST_RISE - 2)):
        yield from at_both_ends(width, 1, [(rise, -LARGEST_RISE)])


def end_quotient(s, h1, z1, h2, z2):
    """Request 2's quotient at an end, in units of a slope, as its two sides."""
    return unit(s) * ((2 * h1 + h2) * h2 * z1 - h1 * h1 * z2), h1 * h2 * (h1 + h2)


def end_pieces_to_round(s, dice, of_each):
    """The same at an end, of its piece and the neighbour, where the quotient is taken."""
    wanted = {"whole": of_each, "above": of_each, "below": of_each}
    while any(wanted.values()):
        h1, h2 = dice.up_to_any_size(WIDEST), dice.up_to_any_size(WIDEST)
        z1, z2 = dice.up_to_any_size(LARGEST_RISE), dice.pick(1, -1) * dice.up_to_any_size(LARGEST_RISE)
        whole, where = rounded(*end_quotient(s, h1, z1, h2, z2))
        if h1 == h2 or z1 * h2 == z2 * h1 or not 0 < whole * h1 < 3 * unit(s) * z1:
            continue  # whole for too plain a reason, or not taken
        if wanted.get(where):
            wanted[where] -= 1
            yield h1, z1, h2, z2


def end_rounding():
    """Ends of such pieces, rising and falling, on the left or on the right."""
    dice = Dice(47)
    for h1, z1, h2, z2 in end_pieces_to_round(FIRST_S, dice, 5):
        order = dice.pick(1, -1)
        yield from points(sums((h1, h2)[::order]), sums((z1, z2)[::order]))
        yield from values(sums((-z1, -z2)[::order]))


def ends_past_floats():
    """Ends whose quotient is whole, and which 64-bit floats take for less as soon as they divide a rise by its width."""
    yield row(b"slopes", digits(3))
    for h1, z1, h2, z2 in ((992, 1018222, 279, 9648), (640, 331272, 35, 3528), (896, 976905, 616, -99), (747, 814562, 189, -840)):
        yield from at_both_ends(h1, h2, [(z1, z2)])


def end_limits():
    """The least and the greatest widths and rises side by side, and none: at both ends of each table."""
    yield row(b"slopes", digits(3))
    for widths in product((1, WIDEST), repeat=2):
        yield row(b"knots", sums(widths))
        for rises in product((-LARGEST_RISE, 0, 1, LARGEST_RISE), repeat=2):
            yield from values(sums(rises))


# ---- what the lists hold from one call to the next


def old_slopes():
    """Slopes that were there before are never read, whatever they are."""
    yield from points(range(5), (0, 1, 4, 4, 2))
    for old in (
        (I32_MIN,) * 5, (I32_MAX,) * 5, (0,) * 5,
        (I32_MAX, I32_MIN, 0, I32_MIN, I32_MAX), (256, 384, 0, 0, 511),
    ):
        yield from slopes(old)
        yield from BUILD_AND_SHOW  # once more, over slopes just built
    yield row(b"knots", (0, 1, 2, 3, 3))
    yield from slopes((I32_MIN, I32_MAX, 0, -1, 1))
    yield from knots((0, 1, 2, 3, 4))


def one_list_after_another():
    """A build, then one list changed, good and bad in turn: each build sees all the lists as they are."""
    yield from points((0, 2, 4, 6), (0, 1, 2, 3))
    yield from values((0, 4, 8, 9))
    yield from knots((0, 1, 4, 6))
    yield from knots((0, 1, 4, 4))
    yield from values((0, -4, -8, 1048576))
    yield from knots((1, 2, 4, 5))
    yield from values((0, -4, -8, -9))
    yield from slopes((1, 2, 3))
    yield from slopes((9, 9, 9, 9))


def longer_and_shorter():
    """Lists that grow and shrink: nothing of a longer one shows in a shorter one, nor comes back with the next."""
    for count in (6, 3, 5, 2, 8, 1, 4, 0, 7, 2):
        first = 100 * count
        yield row(b"knots", range(first, first + count))
        yield row(b"values", range(-first, 3 * count - first, 3))
        yield row(b"slopes", range(first, first + count))
        yield from SHOW_ALL
        yield from BUILD_AND_SHOW_ALL
    for name in NAMES:
        for count in (40, 0, 4, 41, 1):
            yield row(name, range(10, 10 + count))
            yield b"show " + name


# ---- tables by chance


def any_width(dice):
    """A width: small, of any size or at a limit, and at times none."""
    kind = dice.between(0, 40)
    if kind == 0:
        return dice.between(-1, 0)
    if kind == 1:
        return dice.between(WIDEST + 1, WIDEST + 2)
    if kind < 8:
        return dice.between(WIDEST - 1, WIDEST)
    return dice.between(1, 4) if kind < 24 else dice.up_to_any_size(WIDEST)


def any_rise(dice):
    """A rise: small or none, of any size or at a limit, and at times past it."""
    kind, sign = dice.between(0, 40), 2 * dice.between(0, 1) - 1
    if kind == 0:
        return sign * dice.between(LARGEST_RISE + 1, LARGEST_RISE + 2)
    if kind < 6:
        return sign * dice.between(LARGEST_RISE - 1, LARGEST_RISE)
    return sign * (dice.between(0, 4) if kind < 22 else dice.up_to_any_size(LARGEST_RISE))


def any_points(dice):
    """Lines that set a small table by chance, and build."""
    count = dice.between(1, 7)
    widths, rises = [any_width(dice) for _ in range(count)], [any_rise(dice) for _ in range(count)]
    if dice.between(0, 1):
        rises = [abs(rise) for rise in rises]  # no change of sign, so that inner slopes are not 0
    if dice.between(0, 1):
        rises = [-rise for rise in rises]
    return points(sums(widths), sums(rises))


def small_by_chance():
    dice = Dice(9)
    for _ in range(200):
        yield from any_points(dice)


def small_anywhere():
    """The same, with knots and values anywhere in 32 bits."""
    dice = Dice(10)
    for _ in range(40):
        count = dice.between(1, 4)
        widths, rises = [any_width(dice) for _ in range(count)], [any_rise(dice) for _ in range(count)]
        yield from points(somewhere(dice, widths), somewhere(dice, rises))


GROUPS = (
    ("The tables of document 01.", figures),
    ("Tables of 0 to 128 points.", small_counts),
    ("Each list of each length from 0 to 3, with and without other faults.", unequal_lengths),
    ("One list longer, shorter or empty.", one_length_differs),
    ("Tables of 1023 and of 1024 points.", most_points),
    ("Faults far into a table of 1024 points.", far_faults),
    ("A table of 1024 points by chance.", large_by_chance),
    ("Tables of 1025 and of 1026 points.", too_many_points),
    ("Widths refused, at several places.", bad_widths),
    ("Rises refused, at several places, and the largest taken.", bad_rises),
    ("A width and a rise refused: the width is named.", bad_widths_and_rises),
    ("Several faults of one kind: the first is named.", several_faults),
    ("Differences that would wrap in 32 bits.", wrapped_differences),
    ("Two points: the secant, rounded toward zero.", two_points),
    ("Each end by its own piece and the one beside it.", two_ends),
    ("Every two signs of rises at an inner point.", signs),
    ("Every two of some pieces at the limits side by side.", neighbours_at_the_limits),
    ("Every two of some other pieces side by side.", neighbours),
    ("The greatest slopes.", greatest_slopes),
    ("Inner slopes just at, above and below a whole number.", inner_rounding),
    ("Inner slopes that floats would get wrong.", inner_past_floats),
    ("Two pieces in both orders.", in_both_orders),
    ("Knots and values near the ends of 32 bits.", ends_of_32_bits),
    ("Old slopes are not read.", old_slopes),
    ("One list changed after another.", one_list_after_another),
    ("Longer and shorter lists in turn.", longer_and_shorter),
    ("Small tables by chance.", small_by_chance),
    ("Small tables anywhere in 32 bits.", small_anywhere),
)
