"""Pieces and tables on which the program and the reference are compared in other units than a slope's first one, and units that are refused.

Each group leaves the workbench in the unit that it has at first. A refused unit is followed by a look at what it must have left alone.
"""
from itertools import cycle, product

from changes import any_slopes, apart, built, chain, change, change_and_show, end_figures as changed_ends, moved
from dice import Dice, I32_MAX, I32_MIN, I64_MAX, I64_MIN
from drives import at_and_drive, at_the_limit, border_slopes, drive
from evaluations import (
    ACCEPTED, among_steep_ones, any_positions, beside_a_half, beside_a_whole, check_and_at, corner_slopes, halfway, piece_as_table,
    pieces_to_round, proposed, quotient, rising_and_falling, table,
)
from language import NOT_DECIMAL, ODD_BUT_DECIMAL
from pieces import at_the_border, both_signs, cross, piece
from reference import FIRST_S, GREATEST_S, LARGEST_RISE, MOST_IN_32_BITS, WIDEST, unit
from tables import (
    AT_THE_LIMITS, BUILD_AND_SHOW, FIVE_RISES, FIVE_WIDTHS, SHOW_ALL, SOME_OTHERS,
    any_points, at_the_borders, by_chance_of_many, digits, end_figures, end_pieces_to_round, inner_pieces_to_round, row, sums, values,
)

ALL = range(GREATEST_S + 1)
OTHERS = [s for s in ALL if s != FIRST_S]
SHOW_UNIT = b"show unit"


def in_unit(s):
    """A line that sets the unit."""
    return b"unit %d" % s


def built_in(units):
    """Lines that build the table that is set in each of these units."""
    for s in units:
        yield in_unit(s)
        yield from BUILD_AND_SHOW


# ---- figures


def figures():
    """Tables whose slopes are known in several units, pieces where a slope is a whole value, and the slips that come to mind first."""
    yield SHOW_UNIT
    for knots, heights in (
        ((0, 1, 2), (0, 1, 4)),
        ((0, 1, 3), (0, 1, 2)),
        ((0, 3), (0, -10)),  # built in 1/256 and rounded down from there, it is -27 in 1/8, and must be -26
        ((0, 1, 2), (0, 1, -3)),  # with 768 left for the bound, or for the mean, it is 768 in whole values, and must be 3
    ):
        yield from table(knots, heights, digits(len(knots)))
        yield from built_in(ALL)
    yield in_unit(0)
    for slopes in ((3, 3), (4, 1), (4, 0), (3, 4), (1, 4), (0, 4), (4, 3), (1, 1), (0, 3), (5, 1), (4, 2)):
        yield from both_signs(1, 1, *slopes)
    # The float limit is not scaled: the first would be exact, and is refused.
    yield from table((0, 1024), (0, 1025), (0, 0))
    yield from at_and_drive(512)
    yield row(b"values", (0, 1024))
    yield from at_and_drive(512)
    # The unit is asked before the lengths, and before a verdict too.
    yield row(b"values", (0, 1024, 5))
    for s in (9, 8, 0):
        yield in_unit(s)
        yield from (b"build", b"check", b"at 512", b"drive 512", change(0, 1, 1))
    yield in_unit(9)
    yield from (piece(1, 1, 1, 1), piece(1, 0, 0, 0))


# ---- one piece


def small_pieces():
    """Every two slopes of small pieces, from one below 0 to one above 4Z, where a slope is a whole value, or half of one."""
    for s, width, rise in ((0, 1, 1), (0, 1, -1), (0, 1, 2), (0, 2, 1), (0, 3, 2), (1, 1, 1), (1, 2, -1), (1, 3, 1)):
        yield in_unit(s)
        sign, steepest = (1 if rise > 0 else -1), 4 * unit(s) * abs(rise) // width
        for left, right in product(range(-1, steepest + 2), repeat=2):
            yield piece(width, rise, sign * left, sign * right)
    for s in OTHERS:
        yield in_unit(s)
        yield from (piece(5, 0, left, right) for left, right in ((0, 0), (1, 0), (0, 1), (1, -1)))


def border():
    """At the border in each unit: of the least piece, rising and falling, and by turns of one with thirds, of the largest with an odd width, and of any."""
    dice, signs = Dice(51), cycle((1, -1, -1, 1, -1))
    for s in OTHERS:
        yield in_unit(s)
        for numbers in at_the_border(s, dice, [(1, 1)]):
            yield from both_signs(*numbers)
        for shape in ((3, 2), (WIDEST - 1, LARGEST_RISE), (dice.up_to_any_size(WIDEST), dice.up_to_any_size(LARGEST_RISE))):
            sign = next(signs)
            for width, *numbers in at_the_border(s, dice, [shape]):
                yield piece(width, *(sign * number for number in numbers))


def corners():
    """At the corners of what is accepted in each unit, which slopes meet exactly, and one step of each slope away: small, and as steep as can be."""
    for s in OTHERS:
        yield in_unit(s)
        for a_halves, b_halves in ACCEPTED:
            yield from cross(1, 2, a_halves * unit(s), b_halves * unit(s))
        yield from cross(1, LARGEST_RISE, 4 * unit(s) * LARGEST_RISE, unit(s) * LARGEST_RISE)


def steepest_pieces():
    """Slopes at the ends of 32 bits: they do not grow with the unit, and 4Z does."""
    for s, width, rise in product((0, 5), (1, WIDEST), (1, -LARGEST_RISE)):
        yield in_unit(s)
        yield from (piece(width, rise, left, right) for left, right in product((I32_MIN, 0, I32_MAX), repeat=2))


# ---- units that are refused


# Above 8: beside it, and such as would be a good one in 3, 4, 5, 6, 8 or 16 bits, as a shift may take them, or with a sign.
REFUSED = (
    9, 10, 15, 16, 24, 31, 32, 33, 40, 63, 64, 65, 72, 255, 256, 264, 65536, 65544, 2**31 - 1, 2**31, 2**31 + 8, 2**32 - 8, MOST_IN_32_BITS,
)


def refused():
    """Each of them with a good table, and good and bad pieces. Nothing is written, also where a build has written just before."""
    yield from table(range(0, 8, 2), (0, 1, 4, 7), digits(4))
    for s in REFUSED:
        yield in_unit(s)
        yield from (b"build", b"show slopes", b"check", b"at 1", b"drive 1", change(1, 3, 2), *SHOW_ALL)
        yield from (piece(1, 1, 1, 1), piece(1, 0, 0, 0), piece(0, 1, 0, 0), piece(1, LARGEST_RISE + 1, 0, 0), SHOW_UNIT)
    for s in (8, 9):
        yield in_unit(s)
        yield from (b"build", change(1, 3, 2), *SHOW_ALL)


# A table for each cause to refuse it, as knots, values and slopes, and such as have several.
REFUSED_TABLES = (
    ((0, 2, 4), (0, 1, 4), (7, 8)), ((0, 2, 4), (0, 1), (7, 8, 9)), ((0, 2), (0, 1, 4), (7, 8, 9)), ((), (0, 1), (7, 8)),
    ((), (), ()), ((3,), (4,), (5,)),
    ((0, 2, 2), (0, 1, 4), (0, 0, 0)), ((0, 2, 1027), (0, 1, 4), (0, 0, 0)), ((I32_MAX, I32_MIN), (0, 0), (0, 0)),
    ((0, 2, 4), (0, 1, LARGEST_RISE + 2), (0, 0, 0)), ((0, 0, 4), (0, -LARGEST_RISE - 1, 4), (-1, 0, 0)),
    ((0, 2, 4), (0, 1, 4), (0, 0, -1)), ((0, 2, 4), (0, 1, 1), (0, 1, 0)), ((0, 1024), (0, 1025), (0, 0)),
)


def refused_before_others():
    """A refused unit with every other cause: bad lists, positions that are outside, points that are not there. Then the others, as they are in a good unit."""
    for lists in REFUSED_TABLES:
        yield from table(*lists)
        for s in (9, MOST_IN_32_BITS, FIRST_S):
            yield in_unit(s)
            yield from (b"check", b"at 0", b"at -1", b"drive 0", b"drive -1")
            yield from (change(-1, 3, 2), change(3, 3, 2), change(0, 9, 9), change(0, 0, I32_MAX), b"show values")
            if s != FIRST_S:
                yield from (b"build", b"show slopes")
    yield from table(range(1025), digits(1025), [0] * 1025)
    for s in (9, FIRST_S):
        yield in_unit(s)
        yield from (b"build", b"check", b"at 0", b"at -1", b"drive 0", change(0, 0, 1), change(1025, 0, 1))


def refused_with_each_length():
    """A refused unit and each list of each length from 0 to 2."""
    yield in_unit(9)
    for knot_count, value_count, slope_count in product(range(3), repeat=3):
        yield from table((0, 1)[:knot_count], (0, 1)[:value_count], (7, 8)[:slope_count])
        yield from (b"build", b"check", b"at 0", b"drive 0", change(0, 0, 0))
    yield from SHOW_ALL


def faults_before_refused():
    """A fault of the line comes before a refused unit too, and leaves it."""
    yield from table((0, 1), (0, 1), (7, 8))
    yield in_unit(300)
    for line in (
        b"build 1", b"check 1", b"at", b"at x", b"at 2147483648", b"drive 1 2", b"drive x", b"change 1 1", b"change x 1 1", b"change 1 1 x",
        b"piece 1 1 1", b"piece 1 1 1 x", b"piece 9223372036854775808 1 1 1", b"unit", b"unit x", b"unit -1", b"show it",
    ):
        yield line
    yield from (SHOW_UNIT, *SHOW_ALL, b"check")


# ---- builds


def two_points():
    """The secant in each unit, of rises and falls by turns."""
    for s in OTHERS:
        yield in_unit(s)
        yield row(b"slopes", digits(2))
        for sign, (width, rise) in zip(
            cycle((1, -1, -1)),
            (
                (1, 1), (2, 1), (2, 5), (3, 1), (3, 10), (7, 1000), (255, 1), (256, 1), (257, LARGEST_RISE), (WIDEST - 1, 3), (WIDEST, 5),
                (1, LARGEST_RISE), (WIDEST, LARGEST_RISE), (WIDEST - 1, LARGEST_RISE - 1),
            ),
        ):
            yield row(b"knots", (0, width))
            yield from values((0, sign * rise))


def at_each_end(h1, z1, h2, z2):
    """Lines that build a table of two pieces, the first of which is the end piece, and then its mirror image, where that is the last."""
    for order in (1, -1):
        yield row(b"knots", sums((h1, h2)[::order]))
        yield from values(sums((order * z1, order * z2)[::order]))


def ends():
    """End slopes in each unit where a slip would be seen."""
    for s in OTHERS:
        yield in_unit(s)
        yield from end_figures()


def end_borders():
    """Ends whose quotient is 0 or its bound, and beside these, in each unit; at their bound; and at the limits."""
    steps = cycle((0, 1, -1, 0))
    for s in OTHERS:
        yield in_unit(s)
        yield row(b"slopes", digits(3))
        for h1, h2 in ((1, 1), (7, 5), (1020, 96), (WIDEST, 1), (WIDEST, WIDEST)):
            for z1, z2 in at_the_borders(h1, h2):
                most = min(LARGEST_RISE // z1, (LARGEST_RISE - 1) // abs(z2))
                yield from at_each_end(h1, most * z1, h2, most * z2 + next(steps))
        for width, rise in ((3, 1), (7, 5), (300, 1), (1023, 999), (1021, LARGEST_RISE - 2)):
            yield from at_each_end(width, rise, 1, -LARGEST_RISE)
        for h1, h2 in product((1, WIDEST), repeat=2):
            for z1, z2 in ((LARGEST_RISE, -LARGEST_RISE), (1, -LARGEST_RISE)):
                yield from at_each_end(h1, z1, h2, z2)


def inner():
    """Tables with many inner points in each unit: every two of some pieces, and 1024 points by chance."""
    for pieces in (AT_THE_LIMITS, SOME_OTHERS):
        widths, rises = zip(*pieces)
        yield from table(sums(widths), sums(rises), digits(len(pieces) + 1))
        yield from built_in(OTHERS)
    yield from table(*by_chance_of_many(Dice(52)), digits(1024))
    yield from (*built_in(OTHERS), b"check")


def rounding():
    """Slopes just at, above and below a whole number of the unit, at an end and inside, rising and falling."""
    dice = Dice(53)
    for s in OTHERS:
        yield in_unit(s)
        yield row(b"slopes", digits(3))
        for numbers in end_pieces_to_round(s, dice, 2):
            yield from at_each_end(*numbers)
        inner_pieces = [numbers[at : at + 2] for numbers in inner_pieces_to_round(s, dice, 2) for at in (0, 2)]
        widths, rises = zip(*inner_pieces)
        yield from table(sums(widths), sums(rises), digits(len(widths) + 1))
        yield from BUILD_AND_SHOW
        yield from values(sums([-rise for rise in rises]))


def builds_by_chance():
    dice = Dice(54)
    for s in OTHERS:
        yield in_unit(s)
        for _ in range(6):
            yield from any_points(dice)


# ---- values and what the drive is told


def every_position():
    """Every position of tables of 2 to 6 points, built in each unit, and one past each end."""
    dice = Dice(55)
    for s, sign in zip(OTHERS, cycle((1, -1))):
        for count in (1 + s % 5, 5 - s % 3):
            knots = sums(FIVE_WIDTHS[:count], dice.between(-99, 99))
            yield from table(knots, sums([sign * rise * dice.up_to_any_size(100) for rise in FIVE_RISES[:count]]), digits(len(knots)))
            yield from (in_unit(s), b"build", b"check")
            yield from at_and_drive(*range(knots[0] - 1, knots[-1] + 2))


def corner_positions():
    """Every position of small pieces in each unit, rises and falls by turns, and some positions of the largest."""
    dice, signs = Dice(56), cycle((1, -1, -1))
    for s in OTHERS:
        yield in_unit(s)
        for width, rise, positions in (
            (3 + s % 3, 10, range(1, 6)), (WIDEST - s % 2, LARGEST_RISE, (1, 341, 1022)),
        ):
            yield row(b"knots", (0, width))
            for (left, right), sign in zip(corner_slopes(s, width, rise), signs):
                yield from piece_as_table(dice.between(-12, 12), sign * rise, sign * left, sign * right)
                yield from check_and_at(*positions)


def values_to_round():
    """Halves in each unit, and values just at, above and below a whole number and a half."""
    dice = Dice(57)
    for s in OTHERS:
        yield in_unit(s)
        yield from halfway(s, (2, 6, WIDEST)[s % 3], (1, 3, 1025, LARGEST_RISE - 1)[s % 4])
        for wanted, where_is in (({"whole": 1, "above": 1, "below": 1}, beside_a_whole), ({"above": 2, "below": 2}, beside_a_half)):
            for numbers in pieces_to_round(s, dice, wanted, where_is):
                yield from rising_and_falling(dice, *numbers)


def by_half_of_one(over, under):
    """Whether a quotient is as near to a half as one with an odd divisor comes: half of one of its parts below, or above."""
    return {under // 2: "below", under // 2 + 1: "above"}.get(over % under)


def odd_divisors():
    """Where the divisor is odd, which is so in whole values with an odd width only: there is no half, and values come as near to one as they can."""
    yield in_unit(0)
    for width in (1, 3, 5):
        yield from table((0, width, 2 * width), (-3, -2, -4), (0, 0, 0))
        yield from check_and_at(*range(2 * width + 1))
    yield from table((0, 3), (0, 1), (1, 1))  # 13/27 at 1
    yield from at_and_drive(0, 1, 2, 3)
    dice = Dice(58)
    for width in (3, 5, 7, 9, 11, 13, 15):
        wanted = {"below": 2, "above": 2}
        while any(wanted.values()):
            rise, t = dice.up_to_any_size(99 * width), dice.between(1, width - 1)
            left, right = (dice.between(0, 3 * rise // width) for _ in range(2))
            where = by_half_of_one(*quotient(0, width, rise, left, right, t))
            if wanted.get(where):
                wanted[where] -= 1
                yield from rising_and_falling(dice, width, rise, left, right, t)


def bends_in_whole_values():
    """A piece of rise 1 at the border and past it, at each place of small tables, where a slope is a whole value."""
    yield in_unit(0)
    yield from among_steep_ones(1, ((3, 3), (3, 4)))


def positions_by_chance():
    """Tables anywhere with slopes that are accepted in their unit, asked there, and then in another, where they may not be."""
    dice = Dice(59)
    for s in (*OTHERS, *OTHERS):
        count = dice.between(1, 5)
        widths = [dice.up_to_any_size(WIDEST) for _ in range(count)]
        rises = [dice.pick(1, 1, -1) * dice.up_to_any_size(9999) for _ in range(count)]
        knots = sums(widths, dice.between(-99, 99))
        yield from table(knots, sums(rises), proposed(s, dice, widths, rises))
        positions = any_positions(dice, knots, 3)
        for asked in (s, (s + dice.between(1, 8)) % 9):
            yield in_unit(asked)
            yield from (b"check", *at_and_drive(*positions))


def drive_limit():
    """The greatest rise that has a float answer, one less and one more: the same in each unit. The numerator and the denominator are of the unit."""
    dice = Dice(60)
    for s in OTHERS:
        yield in_unit(s)
        for width in (102 + s, 512, WIDEST):
            yield from at_the_limit(s, dice, width)
        yield row(b"knots", (0, WIDEST))
        for rise, slope in product((1024, -1025), (0, 1, 3)):
            sign = 1 if rise > 0 else -1
            yield from piece_as_table(7, rise, sign * slope * unit(s), sign * slope * unit(s))
            yield from drive(0, 1, 512, WIDEST)
    for s, width, rise in ((0, 101, LARGEST_RISE), (4, WIDEST, 1024)):
        yield in_unit(s)
        yield row(b"knots", (7, 7 + width))
        for (left, right), sign in zip(border_slopes(s, width, rise), cycle((1, -1))):
            yield from piece_as_table(dice.between(-99, 99), sign * rise, sign * left, sign * right)
            yield from drive(7, 7 + dice.between(1, width))


# ---- changes


def changed_points():
    """Each point of tables of 2 to 6 points changed over slopes that no build gives, in each unit."""
    dice = Dice(61)
    for s, sign in zip(OTHERS, cycle((1, -1))):
        yield in_unit(s)
        for count in (2 + s % 5, 6 - s % 4):
            knots, heights = apart(dice, count, sign)
            yield row(b"knots", knots)
            yield row(b"values", heights)
            for point in range(count):
                yield row(b"slopes", any_slopes(dice, count))
                yield from (change(*moved(dice, point, knots, heights)), b"show slopes")
    for s in (0, 3, 6):
        yield in_unit(s)
        yield from changed_ends()


def chains():
    """Tables built and then changed many times in each unit. The build at last finds the slopes as they are."""
    dice = Dice(62)
    for s in OTHERS:
        yield in_unit(s)
        yield from chain(dice, 2 + s, 6)


def unlike_units():
    """Changes in another unit than the build's: what they renew is in the new one, and nothing else is converted, nor is it by the unit's own line."""
    knots, heights = list(range(0, 21, 3)), [0, 30, 40, 90, 95, 200, 260]
    for s in OTHERS:
        for first, then in ((FIRST_S, s), (s, FIRST_S)):
            yield in_unit(first)
            yield from built(knots, heights)
            yield from (in_unit(then), b"show slopes", b"check", b"at 10", b"drive 10")
            yield from change_and_show(3, 10, 91)
            yield from (b"check", b"at 10", change(3, 9, 90), b"show slopes")
        # Back in the first of the two each slope is taken for what it says.
        yield from (in_unit(s), b"check", *BUILD_AND_SHOW, b"check")


# ---- the lines


def unit_lines():
    """Every number that is taken, and every fault: of the count of words, of the word, of the number. A faulty line leaves the unit as it was."""
    yield from (line for s in (*ALL, *REFUSED, 2**32 - 2) for line in (in_unit(s), SHOW_UNIT))
    yield in_unit(5)
    for words in (b"", b" ", b"\t\r", b" 1 2", b" 1 x", b" x y", b" 3 3 3", b" -1 2", b" 99999999999999999999 1", b" unit", b" unit 3", b" 3 # three"):
        yield from (b"unit" + words, SHOW_UNIT)
    for word in (*NOT_DECIMAL, b"+0", b"+8", b"8.0", b"8x", b"s", b"8-", b"#8", b"0x8", b"1/256"):
        yield from (b"unit " + word, SHOW_UNIT)
    for number in (
        -1, -2, -8, -256, I32_MIN, -MOST_IN_32_BITS, -(2**32), 8 - 2**32, I64_MIN, I64_MIN - 1, 8 - 2**64, -(10**19), -(10**30),
        2**32, 2**32 + 1, 2**32 + 8, 2**33, 2**40 + 4, I64_MAX, I64_MAX + 1, 2**64 - 1, 2**64, 2**64 + 8, 10**19, 10**20, 10**30,
    ):
        yield from (b"unit %d" % number, SHOW_UNIT)
    for word in (
        *ODD_BUT_DECIMAL, b"08", b"-00", b"0" * 40 + b"7", b"0" * 40 + b"%d" % MOST_IN_32_BITS, b"0" * 40 + b"%d" % 2**32, b"-" + b"0" * 40,
        b"-" + b"0" * 40 + b"3", b"0" * 400 + b"6",
    ):
        yield from (b"unit " + word, SHOW_UNIT)


def dress():
    """Blanks, CRs, comments, and names that are only like the command's or the unit's."""
    yield in_unit(5)
    for line in (
        b"unit\t3", b"  unit   4  ", b"\tunit \t 6\t \t", b"unit 7\r", b"unit 2 \t\r", b"unit 1\r\r", b"unit 1 \r\r", b"unit\r1", b"\runit 1", b"uni\rt 1",
        b"#unit 1", b" #unit 1", b"unit# 1", b"Unit 1", b"UNIT 1", b"uniT 1", b"uni 1", b"nit 1", b"u 1", b"units 1", b"untis 1", b"unit, 1", b"unit1",
        b"unit\x00 1", b"unit\x0b1", b"\xffunit 1", b"\xa0unit 1", b"unit\xa01", b"s 1", b"Unit", b"units x y",
    ):
        yield from (line, SHOW_UNIT)
    for line in (
        b"show\tunit", b"  show  unit\t ", b"show unit\r", b"show unit \r\r", b"show unit\r\r", b"show unit 1", b"show unit unit", b"show unit knots",
        b"show knots unit", b"show Unit", b"show UNIT", b"show uni", b"show nit", b"show units", b"show unit,", b"show unit\x00", b"show \xffunit",
        b"show s", b"show 5", b"Show unit", b"shows unit", b"showunit",
    ):
        yield line
    yield from (b"knots unit", b"knots 1 unit", b"at unit", b"drive unit", b"change unit 1 1", b"build unit", b"check unit", SHOW_UNIT)


def kept():
    """The unit stays over every other line, obeyed, refused or faulty, and no such line asks it but those that work with slopes."""
    for s in (3, 9):
        yield in_unit(s)
        for line in (
            b"knots 0 2 4", b"values 0 1 4", b"slopes 0 0 0", b"build", b"show slopes", b"check", b"at 1", b"drive 1", b"change 1 2 3",
            b"show knots", b"show values", b"show slopes", b"piece 1 1 1 1", b"piece 0 1 1 1", b"at 9", b"drive 9", b"change 3 0 0",
            b"change 1 4 0", b"knots 0 2", b"build", b"check", b"at 1", b"drive 1", b"change 0 0 0", b"knots", b"values", b"slopes",
            b"build", b"nonsense", b"piece 1", b"at x", b"knots 1 x", b"# unit 4", b"", b"slopes 1 2 3", b"show lists",
        ):
            yield from (line, SHOW_UNIT)


# ---- all of them


def and_back(group):
    """The group, and then the first unit again."""

    def lines():
        yield from group()
        yield in_unit(FIRST_S)

    return lines


GROUPS = tuple(
    (title, and_back(group))
    for title, group in (
        ("The figures of the slope units.", figures),
        ("Every small piece where a slope is a whole value or half of one.", small_pieces),
        ("At the border in each unit.", border),
        ("At the corners of the accepted region in each unit.", corners),
        ("Slopes at the ends of 32 bits in two units.", steepest_pieces),
        ("Units that are refused.", refused),
        ("A refused unit before every other cause.", refused_before_others),
        ("A refused unit and lists of each length from 0 to 2.", refused_with_each_length),
        ("Faults of the line before a refused unit.", faults_before_refused),
        ("Two points in each unit.", two_points),
        ("End slopes in each unit where a slip would be seen.", ends),
        ("End slopes in each unit at the borders of their rule, at their bound and at the limits.", end_borders),
        ("Many inner slopes in each unit.", inner),
        ("Slopes in each unit just at, above and below a whole number.", rounding),
        ("Builds by chance in each unit.", builds_by_chance),
        ("Every position of small tables in each unit.", every_position),
        ("Positions in each unit on pieces at the corners of the accepted region.", corner_positions),
        ("Values in each unit at halves, and just at, above and below them and whole numbers.", values_to_round),
        ("Values by odd divisors, which come near a half and never to it.", odd_divisors),
        ("One piece at the border and past it, at each place, where a slope is a whole value.", bends_in_whole_values),
        ("Positions by chance in one unit and in another.", positions_by_chance),
        ("The drive's limit, which is the same in each unit.", drive_limit),
        ("Points changed in each unit.", changed_points),
        ("Built tables, changed again and again in each unit.", chains),
        ("Changes in another unit than the build's.", unlike_units),
        ("Units that are set, and units that are not.", unit_lines),
        ("Units in unusual dress, and names that are only like theirs.", dress),
        ("A unit that stays while other lines are read.", kept),
    )
)
