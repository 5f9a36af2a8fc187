"""Tables on which the program and the reference are compared: what the drive is told at positions.

Here a piece has room if its rise is small enough for the exact float answer, and is too large if not.
"""
from itertools import cycle, islice, product

from dice import Dice, I32_MAX, I32_MIN
from evaluations import any_positions, beside, piece_as_table, proposed, table
from pieces import FIGURES, right_slopes_at_border
from reference import FIRST_S, LARGEST_IN_FLOATS, LARGEST_RISE, WIDEST, built_slopes, unit, verdict
from tables import FIVE_RISES, FIVE_WIDTHS, SHOW_ALL, TEN_RISES, TEN_WIDTHS, every_two, row, somewhere, sums, with_step


def drive(*positions):
    """Lines that ask what the drive is told at these positions."""
    return [b"drive %d" % position for position in positions]


def at_and_drive(*positions):
    """The same, each after the value at its position."""
    return [b"%b %d" % (command, position) for position in positions for command in (b"at", b"drive")]


def greatest_rise(width):
    """The greatest rise with which a piece of this width has room."""
    return min(LARGEST_RISE, LARGEST_IN_FLOATS // width**3)


# ---- moves and dwells


def figures():
    """The widths and rises of document 01, its table of two points, and its pieces as such tables."""
    yield row(b"knots", (0, 1024))
    for rise, slope in product((1024, 1025), (0, 256, 768)):
        for sign in (1, -1):
            yield from piece_as_table(0, sign * rise, sign * slope, sign * slope)
            yield from drive(0, 1, 512, 1023, 1024)
    yield from table((0, 3), (0, -10), (0, 0))
    yield b"build"
    yield from at_and_drive(*range(-1, 5))
    for width, rise, left, right in FIGURES:
        yield from table((0, width), (0, rise), (left, right))
        yield from drive(*range(width + 1))


def every_position():
    """Every position of tables of 2 to 6 points and some outside, first with slopes of 0."""
    dice = Dice(18)
    for count, sign in product(range(1, 6), (1, -1)):
        knots = somewhere(dice, FIVE_WIDTHS[:count])
        rises = [sign * rise * dice.up_to_any_size(100) for rise in FIVE_RISES[:count]]
        yield from table(knots, sums(rises, dice.between(-100, 100)), [0] * len(knots))
        yield from drive(I32_MIN, *range(knots[0] - 1, knots[-1] + 2), I32_MAX)
        yield b"build"
        yield from at_and_drive(*range(knots[0], knots[-1] + 1))


def rise_fall_and_rest():
    """Every three of a piece that rises, one that falls and one that is level."""
    for rises in product((5, -5, 0), repeat=3):
        yield from table(sums((2, 3, 2)), sums(rises, -4), [0] * 4)
        yield b"build"
        yield from drive(*range(8))


def levels():
    """Level pieces, up to the widest, at one level: 0, others, and the ends of 32 bits."""
    knots = sums((1, 101, 102, WIDEST), -2)
    for level in (0, 7, -7, I32_MIN, I32_MAX):
        yield from table(knots, [level] * 5, [0] * 5)
        yield from drive(*beside(knots))


def stairs():
    """Level pieces at several levels, with steps up and down between them."""
    for first in (-5, 0, I32_MIN, I32_MAX - 12):
        knots = range(-9, 9, 2)
        yield from table(knots, sums((0, 5, 0, 7, 0, -12, 0, 3), first), [0] * 9)
        yield from drive(*range(-9, 8))


def through_zero():
    """Pieces from a value to the one of the same size and the other sign, which are no dwells."""
    for width, value in ((1, 1), (4, 5), (1024, 512), (101, LARGEST_RISE // 2)):
        yield from table((0, width, 2 * width), (-value, value, -value), [0] * 3)
        yield from drive(0, width - 1, width, 2 * width)


# Tenths of Z for a and b: with each sign, and with none, of the numerator's three factors a, 3Z - 2a - b and a + b - 2Z.
SIGNS = (
    (0, 0), (0, 20), (0, 25), (0, 30), (5, 5), (5, 15), (5, 18), (5, 20), (10, 10), (12, 6), (15, 3), (15, 5), (20, 20),
)


def left_knots():
    """Where a move starts: its numerator is a sum of nothings, of either sign in floats, and must be 0 and not -0."""
    for width, rise in ((1, 10), (5, 100), (1024, 1000)):  # here a tenth of Z is a whole number of slopes
        yield row(b"knots", (-width, 0))
        for (a_tenths, b_tenths), sign in product(SIGNS, (1, -1)):
            tenth = sign * unit(FIRST_S) * rise // (10 * width)
            yield from piece_as_table(30, sign * rise, a_tenths * tenth, b_tenths * tenth)
            yield from drive(-width, 1 - width)


def ends_of_32_bits():
    """Knots and values that begin or end at an end of 32 bits, and pieces beside them that are too large."""
    for widths, rises in (((2, 1), (3, 1)), ((1024, 1, 1024), (1024, 1048576, 1025)), ((101, 5), (1048576, 0))):
        falls = [-rise for rise in rises]
        for first_knot in (I32_MIN, -1, I32_MAX - sum(widths)):
            knots = sums(widths, first_knot)
            for values in (
                sums(rises, I32_MIN), sums(falls, I32_MAX),
                sums(rises, I32_MAX - sum(rises)), sums(falls, I32_MIN + sum(rises)),
            ):
                yield from table(knots, values, built_slopes(FIRST_S, knots, values))
                yield from drive(*knots, *(knot - 1 for knot in knots[1:]))


# ---- the limit


# The narrowest widths at which a rise can be too large; those at which one is just at the limit, and widths beside them;
# those at which one comes nearest to it without reaching it, at 107 from below and at 189 from above; and some others.
WIDTHS = sorted({
    102, 103, 104, 127, 128, 129, 255, 256, 257, 511, 512, 513, 1022, 1023, 1024,
    107, 164, 189, 197, *range(115, 1024, 29),
})


def at_the_limit(s, dice, width):
    """Lines that drive pieces with the greatest rise that has room, one less and one more, rising and falling."""
    yield row(b"knots", (0, width))
    for step, sign in product((-1, 0, 1), (1, -1)):
        rise = greatest_rise(width) + step
        left, right = (dice.between(0, 3 * unit(s) * rise // width) for _ in range(2))
        yield from piece_as_table(dice.between(-9, 9), sign * rise, sign * left, sign * right)
        yield from drive(dice.between(0, width))


def the_limit():
    """Such pieces of many widths."""
    dice = Dice(19)
    for width in WIDTHS:
        yield from at_the_limit(FIRST_S, dice, width)


def far_from_the_limit():
    """The greatest rises of all, with room up to a width of 101, and the least at the greatest widths."""
    for width, rise in (
        *((width, LARGEST_RISE) for width in (1, 2, 50, 100, 101, 102, 103, 128, 256, 812, 813, 1023, 1024)),
        (1023, 1), (1024, 1), (1024, 2), (1024, 2048), (1024, 4096), (1024, LARGEST_RISE - 1), (101, LARGEST_RISE - 1),
    ):
        yield row(b"knots", (-1, width - 1))
        for sign in (1, -1):
            yield from piece_as_table(3, sign * rise, sign * (unit(FIRST_S) * rise // width), 0)
            yield from drive(-1, width // 2, width - 1)


def border_slopes(s, width, rise):
    """The least and the greatest right slope that a rising piece is accepted with, for left slopes up to the steepest.

    These come in hundredths of the straight line's slope. 3Z - 2a - b is largest in size at 373 with the greatest.
    """
    for hundredths in (0, 100, 200, 300, 373, 400):
        left = hundredths * unit(s) * rise // (100 * width)
        rights = right_slopes_at_border(s, width, rise, left)
        taken = [right for right in rights if verdict(s, width, rise, left, right) == "rising"]
        if taken:
            yield from ((left, taken[0]), (left, taken[-1]))


def steepest():
    """Slopes at the border of what is accepted, on pieces with the greatest rise that has room."""
    dice = Dice(20)
    for width in (1, 101, 102, 512, 1023, 1024):
        rise = greatest_rise(width)
        yield row(b"knots", (7, 7 + width))
        for (left, right), sign in product(border_slopes(FIRST_S, width, rise), (1, -1)):
            yield from piece_as_table(dice.between(-99, 99), sign * rise, sign * left, sign * right)
            yield from drive(7, 7 + dice.between(1, width))


# ---- the position's own piece


# A piece of each kind: level, with little and with no room to spare, and too large; narrow and wide, up and down.
KINDS = ((5, 0), (WIDEST, 0), (3, 7), (4, -9), (1024, 1024), (512, -8192), (1024, 1025), (200, -200000))


def neighbours():
    """Every two of these kinds side by side: each knot belongs to the piece that starts there."""
    widths, rises = zip(*every_two(KINDS))
    knots = sums(widths, -20000)
    yield from table(knots, sums(rises, 300), [0] * len(knots))
    yield b"build"
    yield from drive(*beside(knots))


def last_pieces():
    """Each of these kinds as the last piece, after each: the last knot belongs to it."""
    dice = Dice(21)
    for pieces in product(KINDS, repeat=2):
        widths, rises = zip(*pieces)
        knots = sums(widths)
        yield from table(knots, sums(rises, dice.between(-99, 99)), proposed(FIRST_S, dice, widths, rises))
        yield from drive(knots[1] - 1, knots[1], knots[2])


def too_large_among_ten():
    """Each of ten pieces too large, then all but one: only their own positions are refused."""
    for place in range(10):
        for widths, rises in (
            (with_step(TEN_WIDTHS, place, 1024), with_step(TEN_RISES, place, 1025)),
            (with_step([1024] * 10, place, 2), with_step([-1025] * 10, place, 9 * (place % 2))),
        ):
            knots, values = sums(widths), sums(rises)
            yield from table(knots, values, [0] * 11)
            yield from drive(*knots, knots[place + 1] - 1)


# ---- the order of the causes


def order_of_causes():
    """Bad widths, bad rises and pieces that bend, early and late, or none, and positions inside and outside.

    Piece 0 is level, and piece 2 and the last one are too large. The late faults are at that last one.
    """
    widths, rises = (4, 3, 1024, 2, 1024), (0, 9, 2000, -5, -3000)
    all_knots = [sums(widths), *(sums(with_step(widths, place, width)) for place, width in ((0, 0), (4, 1025)))]
    all_values = [sums(rises), *(sums(with_step(rises, place, rise)) for place, rise in ((0, 1048577), (4, -1048577)))]
    all_slopes = [[0] * 6, [1, 0, 0, 0, 0, 0], [0, 0, 0, 0, 0, 1]]
    for knots, values, slopes in product(all_knots, all_values, all_slopes):
        yield from table(knots, values, slopes)
        yield from drive(-1, 0, knots[2], knots[-1], knots[-1] + 1)


def outside():
    """Positions outside a table of pieces that are too large, and of one that is level, after it and before."""
    for knots, values in (
        ((0, 1024), (0, 1025)), ((0, 1024), (0, -1048576)), ((-7, 900, 1800), (0, 5000, -5000)),
        ((0, 1024, 1025), (0, 2000, 2000)), ((0, 1, 1025), (5, 5, 2000)),
    ):
        yield from table(knots, values, [0] * len(knots))
        yield from drive(*beside((knots[0], knots[-1])))


def unequal_lengths():
    """Each list of each length from 0 to 3, with a piece that is too large and one that is level."""
    knots, values, slopes = (0, 1024, 1030), (0, 2000, 2000), (0, 0, 0)
    for knot_count, value_count in product(range(4), repeat=2):
        yield row(b"knots", knots[:knot_count])
        yield row(b"values", values[:value_count])
        for slope_count in range(4):
            yield row(b"slopes", slopes[:slope_count])
            yield from drive(5, 1025)


def faults_of_the_line():
    """A fault of the line comes before any refusal, and instead of any answer."""
    for three in (
        ((0, 1), (0, 1), (0,)), ((0,), (0,), (0,)), ((0, 0), (0, 1), (0, 0)), ((0, 1), (0, 1), (-1, 0)),
        ((0, 1024), (0, 1025), (0, 0)), ((0, 1), (4, 4), (0, 0)), ((0, 1), (0, 1), (0, 0)),
    ):
        yield from table(*three)
        for tail in (b" 1", b"", b" 1 2", b" x", b" 2147483648", b" 1 x"):
            yield b"drive" + tail


# ---- what the lists hold from one call to the next


def left_alone():
    """Tables that are accepted, and one for each refusal: no list changes, whatever is answered."""
    for three in (
        ((3, 5, 9), (-7, 2, 30), (100, 1000, 5)),
        ((3, 5, 9), (-7, -7, 30), (0, 0, 5)),
        ((3, 5, 1029), (-7, 2, 1030), (100, 50, 5)),
        ((3, 5, 9), (-7, 2, 30), (100, 1000)),
        ((3,), (-7,), (100,)),
        ((3, 5, 5), (-7, 2, 30), (100, 1000, 5)),
        ((3, 5, 9), (-7, 2, -2000000), (100, 1000, 5)),
        ((3, 5, 9), (-7, 2, 30), (100, 1000, -5)),
    ):
        yield from table(*three)
        for position in (3, 4, 9, 10):
            yield from drive(position)
            yield from SHOW_ALL


def one_list_after_another():
    """One list changed, good and bad in turn: the drive is told of all the lists as they are."""
    yield from table((0, 2, 4, 6), (0, 1, 2, 3), (0, 0, 0, 0))
    for line in (
        b"build", b"values 0 4 8 9", b"build", b"knots 0 1 4 6", b"build", b"knots 0 1 4 4", b"knots 0 1 4 1028",
        b"values 0 4 8 1032", b"values 0 4 8 1033", b"build", b"slopes 0 1 0", b"slopes 0 1 0 0", b"values 9 9 9 9",
        b"values 9 9 9 x", b"slopes 0 0 0 0", b"values -9 -9 -9 -8", b"knots 2 3 4 6",
    ):
        yield line
        yield from drive(0, 3, 5)


# ---- many points, and tables by chance


def any_step(dice):
    """A width and a rise: none, at the limit or beside it, about as large, or of any size."""
    width, kind, sign = dice.between(90, WIDEST), dice.between(0, 9), 2 * dice.between(0, 1) - 1
    if kind == 0:
        return width, 0
    if kind < 4:
        return width, sign * min(LARGEST_RISE, greatest_rise(width) + dice.between(-1, 1))
    if kind < 8:
        return width, sign * dice.between(1, min(LARGEST_RISE, 3 * greatest_rise(width)))
    return dice.up_to_any_size(WIDEST), sign * dice.up_to_any_size(LARGEST_RISE)


def most_points():
    """1024 points with slopes by chance: at knots all over them, and anywhere. Then one slope is against its rise."""
    dice = Dice(22)
    widths, rises = zip(*(any_step(dice) for _ in range(1023)))
    knots, values, slopes = sums(widths, -250000), sums(rises), proposed(FIRST_S, dice, widths, rises)
    yield from table(knots, values, slopes)
    yield from drive(*beside(knots[place] for place in (0, 1, 255, 256, 511, 512, 513, 767, 1021, 1022, 1023)))
    yield from at_and_drive(*any_positions(dice, knots, 100))
    yield row(b"slopes", with_step(slopes, 1023, -rises[1022]))
    yield from drive(knots[0] - 1, *any_positions(dice, knots, 8), knots[1023])


def each_knot():
    """Each knot and the positions beside it, where each piece starts at a value of its own, which the drive is told."""
    for count, sign in zip((2, 3, 4, 5, 31, 32, 33, 1023, 1024), cycle((1, -1))):
        knots, values = (
            sums(islice(cycle(steps), count - 1), -700) for steps in ((1, 4, 2, 3, 1, 7), (sign * 5, sign, sign * 3))
        )
        yield from table(knots, values, built_slopes(FIRST_S, knots, values))
        yield from drive(*beside(knots))


def one_too_large_of_many():
    """1024 points with one piece that is too large, the last and then the first, and then a point more."""
    places = (0, 1, 512, 1022, 1023, 1024, 2046, 2047)
    for knots, values in (
        ([*range(1023), 2046], [0] * 1023 + [1025]),
        ([0, *range(1024, 2047)], [0] + [-1025] * 1023),
        ([0, *range(1024, 2048)], [0] + [-1025] * 1024),
    ):
        yield from table(knots, values, [0] * len(knots))
        yield from drive(*places)


def by_chance():
    """Rises, falls and levels anywhere in 32 bits, with slopes that are accepted but for one now and then."""
    dice = Dice(23)
    for _ in range(60):
        count = dice.between(1, 6)
        widths, rises = zip(*(any_step(dice) for _ in range(count)))
        if dice.between(0, 1):
            rises = [abs(rise) for rise in rises]  # no change of sign, so that inner slopes are not 0
        knots, slopes = somewhere(dice, widths), proposed(FIRST_S, dice, widths, rises)
        if dice.between(0, 9) == 0:
            slopes[dice.between(0, count)] += dice.between(-2000, 2000)
        yield from table(knots, somewhere(dice, rises), slopes)
        yield from at_and_drive(*any_positions(dice, knots, 2))
        yield b"build"
        yield from drive(*any_positions(dice, knots, 2), knots[dice.between(0, count)])


GROUPS = (
    ("The float answers of document 01.", figures),
    ("The drive at every position of small tables.", every_position),
    ("The drive on pieces that rise, fall and rest.", rise_fall_and_rest),
    ("The drive on level tables.", levels),
    ("The drive on stairs.", stairs),
    ("The drive from below 0 to above it, and back.", through_zero),
    ("The drive where a move starts.", left_knots),
    ("The drive at the ends of 32 bits.", ends_of_32_bits),
    ("The greatest rises that have a float answer, and those beside them.", the_limit),
    ("The greatest rises of all, and the least.", far_from_the_limit),
    ("The steepest slopes that have a float answer.", steepest),
    ("Every two of level pieces, pieces with room and too large ones side by side.", neighbours),
    ("Each of them at the end of a table.", last_pieces),
    ("One piece too large, and all but one, at each place.", too_large_among_ten),
    ("Several causes: too large is the last to be asked.", order_of_causes),
    ("Positions outside tables of pieces that are too large.", outside),
    ("Lists of each length from 0 to 3, with a piece that is too large.", unequal_lengths),
    ("Faults of the line before what the drive is told.", faults_of_the_line),
    ("The drive changes no list.", left_alone),
    ("One list changed after another, and driven.", one_list_after_another),
    ("The drive on 1024 points.", most_points),
    ("One piece of 1023 too large, and 1025 points.", one_too_large_of_many),
    ("The drive by chance.", by_chance),
)
