"""Pieces on which the program and the reference are compared."""
from dice import Dice, I32_MAX, I32_MIN, I64_MAX, I64_MIN
from reference import FIRST_S, LARGEST_RISE, WIDEST, unit, verdict


def piece(width, rise, left, right):
    return b"piece %d %d %d %d" % (width, rise, left, right)


def both_signs(width, rise, left, right):
    """A piece and its mirror image, which falls where the piece rises."""
    yield piece(width, rise, left, right)
    yield piece(width, -rise, -left, -right)


def cross(width, rise, left, right):
    """A piece and those one step of one slope away from it, in both signs."""
    for left_step, right_step in ((0, 0), (-1, 0), (1, 0), (0, -1), (0, 1)):
        yield from both_signs(width, rise, left + left_step, right + right_step)


# The pieces of document 01.
FIGURES = (
    (1, 1, 256, 256),
    (1, 1, 768, 768),
    (1, 1, 768, 769),
    (1, 1, 1024, 256),
    (1, 1, 1025, 256),
    (1, 1, 1024, 255),
    (1, 1, 768, 0),
    (1, 1, 769, 0),
    (1, 0, 0, 0),
    (1, 0, 1, -1),
    (1, -1, -768, -768),
    (2, 1, 384, 384),
)


def figures():
    for numbers in FIGURES:
        yield piece(*numbers)
    for width in (0, 1, 1024, 1025):
        yield piece(width, 1, 0, 0)
    for rise in (1048576, -1048576, 1048577, -1048577):
        yield piece(1, rise, 0, 0)


def last_accepted(s, width, rise, left, inside, outside):
    """The last right slope that is accepted on the way from one that is to one that is not."""
    while abs(outside - inside) > 1:
        half = (inside + outside) // 2
        if verdict(s, width, rise, left, half) == "rising":
            inside = half
        else:
            outside = half
    return inside


def right_slopes_at_border(s, width, rise, left):
    """Right slopes around the least and the greatest accepted with this left slope.

    The accepted ones are an interval with b = (6Z - a)/2 inside. Near its ends in a, it can be too
    narrow for a whole slope; then those around it are taken.
    """
    middle = (6 * unit(s) * rise - left * width) // (2 * width)
    if verdict(s, width, rise, left, middle) != "rising":
        return range(middle - 1, middle + 3)
    least = last_accepted(s, width, rise, left, middle, -1)
    greatest = last_accepted(s, width, rise, left, middle, 4 * unit(s) * rise // width + 1)
    return sorted({*range(least - 2, least + 2), *range(greatest - 1, greatest + 3)})


def at_the_border(s, dice, shapes):
    """Slopes at the border of what is accepted of pieces of these widths and rises, and those beside them, as rising pieces."""
    for width, rise in shapes:
        three, four = 3 * unit(s) * rise // width, 4 * unit(s) * rise // width
        lefts = (dice.between(0, four), three + dice.between(0, 2), dice.between(three, four), four)
        for left in sorted(set(lefts)):
            yield from ((width, rise, left, right) for right in right_slopes_at_border(s, width, rise, left))


def border():
    dice = Dice(1)
    shapes = [(width, rise) for width in (1, 2, 3, 1023, 1024) for rise in (1, 3, 1000, LARGEST_RISE)]
    shapes += [(dice.up_to_any_size(WIDEST), dice.up_to_any_size(LARGEST_RISE)) for _ in range(30)]
    for numbers in at_the_border(FIRST_S, dice, shapes):
        yield from both_signs(*numbers)


# Points (a, b) in halves of Z: the corners of the accepted region, those of the box around it, and
# points where two of the paper's lines meet or one of them meets a side.
CORNERS = (
    (0, 0), (6, 0), (0, 6), (6, 6), (8, 2), (2, 8), (8, 0), (0, 8), (8, 8),
    (4, 0), (0, 4), (2, 2), (3, 3), (3, 0), (0, 3), (1, 4), (4, 1),
)
# Widths and rises: in the first six the width divides Z/2, so that slopes meet the corners exactly.
SHAPES = (
    (1, 1), (2, 1), (3, 3), (128, 1), (1024, 8), (1024, LARGEST_RISE),
    (3, 1), (7, 2), (1023, LARGEST_RISE),
)


def corners():
    for width, rise in SHAPES:
        for a_halves, b_halves in CORNERS:
            half = unit(FIRST_S) * rise // 2
            yield from cross(width, rise, a_halves * half // width, b_halves * half // width)


# Lines p·a + q·b = r·Z, as p, q, r: those of the paper's tests and the sides of the region's box.
LINES = (
    (1, 0, 3), (1, 0, 4), (0, 1, 3), (0, 1, 4), (1, 1, 2), (1, 1, 3), (2, 1, 3), (1, 2, 3),
)


def lines():
    dice = Dice(2)
    for width, rise in SHAPES:
        Z = unit(FIRST_S) * rise
        for p, q, r in LINES:
            if q == 0:
                left, right = r * Z // width, dice.between(0, 4 * Z // width)
            else:
                left = dice.between(0, r * Z // (max(p, 1) * width))
                right = (r * Z - p * left * width) // (q * width)
            yield from cross(width, rise, left, right)


def no_rise():
    slopes = (0, 1, -1, I32_MAX, I32_MIN)
    for width in (1, 2, 3, 256, WIDEST - 1, WIDEST):
        for left in slopes:
            for right in slopes:
                yield piece(width, 0, left, right)


def limits():
    slopes = [(left, right) for left in (I32_MIN, 0, I32_MAX) for right in (I32_MIN, 0, I32_MAX)]
    slopes += [(1, 1), (1, -1), (-1, 1), (-1, -1)]
    for width in (1, 2, 3, WIDEST - 1, WIDEST):
        for rise in (1, -1, LARGEST_RISE, -LARGEST_RISE):
            for left, right in slopes:
                yield piece(width, rise, left, right)


def large_squares():
    for power in range(20, 31):
        slope = 2**power
        for width in (1, WIDEST):
            for rise in (1, LARGEST_RISE):
                for left, right in ((slope, 0), (0, slope), (slope, slope)):
                    yield from both_signs(width, rise, left, right)


# Some would be good numbers if only their last 16, 32 or 56 bits were looked at.
BAD_WIDTHS = (0, -1, 1025, -1024, 65537, 2**32 + 1, 2**32 + 1024, 1 - 2**32, I64_MIN, I64_MIN + 1, I64_MAX)
BAD_RISES = (1048577, -1048577, 2**32, 2**32 + 1, -(2**32) - 1, 2**56, 2**56 + 1, I64_MIN, I64_MAX)


def refused_widths():
    for width in BAD_WIDTHS:
        for rise in (0, 1, -1):
            for slope in (0, 256):
                yield piece(width, rise, slope, slope)


def refused_rises():
    for rise in BAD_RISES:
        for width in (1, WIDEST):
            for slope in (0, 256):
                yield piece(width, rise, slope, slope)


def refused_both():
    for width in BAD_WIDTHS:
        for rise in BAD_RISES:
            yield piece(width, rise, 0, 0)


def anywhere():
    dice = Dice(3)
    for _ in range(150):
        width, rise = dice.between(1, WIDEST), dice.between(-LARGEST_RISE, LARGEST_RISE)
        yield piece(width, rise, dice.between(I32_MIN, I32_MAX), dice.between(I32_MIN, I32_MAX))


def in_the_box():
    dice = Dice(4)
    for _ in range(200):
        width, rise = dice.up_to_any_size(WIDEST), dice.up_to_any_size(LARGEST_RISE)
        highest = 4 * unit(FIRST_S) * rise // width
        yield from both_signs(width, rise, dice.between(0, highest), dice.between(0, highest))


GROUPS = (
    ("The pieces of document 01, then its widths and rises at their limits.", figures),
    ("At the border: the least and the greatest right slope accepted, and those beside them.", border),
    ("At the corners of the accepted region, and one step of each slope away.", corners),
    ("On the lines of the paper's tests, and one step of each slope away.", lines),
    ("No rise.", no_rise),
    ("Slopes at the ends of 32 bits, widths and rises at their limits.", limits),
    ("Slopes so steep that squares of a and b leave 64 bits, some of them ending in 64 zeros.", large_squares),
    ("Widths refused.", refused_widths),
    ("Rises refused.", refused_rises),
    ("Width and rise both outside: the width is named.", refused_both),
    ("Anywhere within the limits.", anywhere),
    ("Anywhere with a and b from 0 to 4Z.", in_the_box),
)
