"""Tables on which the program and the reference are compared: whether they are accepted, and their values at positions.

Every table is checked and then evaluated. Its slopes are proposed, or built.
"""
from itertools import combinations, product

from dice import Dice, I32_MAX, I32_MIN
from pieces import FIGURES, right_slopes_at_border
from reference import FIRST_S, LARGEST_RISE, WIDEST, built_slopes, unit
from tables import (
    FIVE_RISES, FIVE_WIDTHS, NAMES, SHOW_ALL, TEN_RISES, TEN_WIDTHS,
    digits, rounded, row, somewhere, sums, wave, with_step,
)


def table(knots, values, slopes):
    """Lines that set a table."""
    return [row(name, numbers) for name, numbers in zip(NAMES, (knots, values, slopes))]


def check_and_at(*positions):
    """Lines that check the table and evaluate it at these positions."""
    return b"check", *(b"at %d" % position for position in positions)


def before_and_after_build(*positions):
    """Lines that check and evaluate the table with the slopes that it has, and then with those that are built."""
    return *check_and_at(*positions), b"build", *check_and_at(*positions)


def beside(knots):
    """Each knot and the positions beside it, as far as 32 bits hold them, and the ends of 32 bits."""
    near = {knot + step for knot in knots for step in (-1, 0, 1)}
    return sorted({I32_MIN, I32_MAX, *(position for position in near if I32_MIN <= position <= I32_MAX)})


# ---- values


def figures():
    """The evaluations of document 01, and its pieces as tables of two points."""
    yield from table((0, 3), (0, -10), (0, 0))
    yield b"build"
    yield from check_and_at(*range(-1, 5))
    yield from table((I32_MAX, I32_MIN), (0, 0), (0, 0))
    yield from check_and_at(I32_MIN, 0, I32_MAX)
    for width, rise, left, right in FIGURES:
        yield from table((0, width), (0, rise), (left, right))
        yield from check_and_at(*range(width + 1))


def every_position():
    """Every position of tables of 2 to 6 points and one past each end, first with slopes of 0."""
    dice = Dice(12)
    for count, sign in product(range(1, 6), (1, -1)):
        knots = somewhere(dice, FIVE_WIDTHS[:count])
        rises = [sign * rise * dice.up_to_any_size(100) for rise in FIVE_RISES[:count]]
        yield from table(knots, sums(rises, dice.between(-100, 100)), [0] * len(knots))
        yield from before_and_after_build(I32_MIN, *range(knots[0] - 1, knots[-1] + 2), I32_MAX)


def rise_fall_and_rest():
    """Every three of a piece that rises, one that falls and one that is level."""
    for rises in product((5, -5, 0), repeat=3):
        yield from table(sums((2, 3, 2)), sums(rises, -4), [0] * 4)
        yield b"build"
        yield from check_and_at(*range(8))


def levels():
    for level in (0, 7, -7, I32_MIN, I32_MAX):
        yield from table((-2, 1, 2), [level] * 3, [0] * 3)
        yield from check_and_at(*range(-3, 4))


# The straight line and the corners of what is accepted, as a and b in halves of Z.
ACCEPTED = ((2, 2), (0, 0), (6, 0), (0, 6), (6, 6), (8, 2), (2, 8))


def piece_as_table(first, rise, left, right):
    """Lines that set all but the knots of a table of two points."""
    return row(b"values", (first, first + rise)), row(b"slopes", (left, right))


def corner_slopes(s, width, rise):
    """The slopes of a rising piece at each of those points, as near as whole slopes come."""
    return [tuple(halves * unit(s) * rise // (2 * width) for halves in point) for point in ACCEPTED]


def small_pieces():
    """Every position of small pieces that rise, and of those that fall."""
    dice = Dice(13)
    for width in (2, 3, 4, 5, 7):
        yield row(b"knots", (0, width))
        for rise in (1, 10):
            for left, right in corner_slopes(FIRST_S, width, rise):
                for sign in (1, -1):
                    yield from piece_as_table(dice.between(-12, 12), sign * rise, sign * left, sign * right)
                    yield from check_and_at(*range(width + 1))


def largest_pieces():
    """The least and the greatest widths, the greatest rises, and values that begin at an end of 32 bits."""
    for width, rise in (
        (1, LARGEST_RISE), (2, LARGEST_RISE - 1), (WIDEST - 1, LARGEST_RISE), (WIDEST, LARGEST_RISE - 1),
        (WIDEST, LARGEST_RISE),
    ):
        yield row(b"knots", (-1, width - 1))
        positions = sorted({step - 1 for step in (0, 1, width // 3, width // 2, width - 1, width)})
        for left, right in corner_slopes(FIRST_S, width, rise):
            yield from piece_as_table(I32_MIN, rise, left, right)
            yield from check_and_at(*positions)
            yield from piece_as_table(I32_MAX, -rise, -left, -right)
            yield from check_and_at(*positions)


def ends_of_32_bits():
    """Knots and values that begin or end at an end of 32 bits. There is no position past such a knot."""
    for widths, rises in (((2, 1, 3), (3, 1, 2)), ((1024, 1, 1024), (1, 1048576, 1048576)), ((7, 5), (1048576, 0))):
        falls = [-rise for rise in rises]
        for first_knot in (I32_MIN, -1, I32_MAX - sum(widths)):
            knots = sums(widths, first_knot)
            for values in (
                sums(rises, I32_MIN), sums(falls, I32_MAX),
                sums(rises, I32_MAX - sum(rises)), sums(falls, I32_MIN + sum(rises)),
            ):
                yield from table(knots, values, built_slopes(FIRST_S, knots, values))
                yield from check_and_at(*beside(knots))


def quotient(s, width, rise, left, right, t):
    """Document 01's quotient at a position of a piece, as its two sides."""
    Z, a, b = unit(s) * rise, left * width, right * width
    return a * t * width**2 + (3 * Z - 2 * a - b) * t**2 * width + (a + b - 2 * Z) * t**3, unit(s) * width**3


def pieces_to_round(s, dice, wanted, where_is):
    """Rising pieces with an inner position, as width, rise, slopes and the position: so many as are wanted of each kind that the quotient there is of."""
    while any(wanted.values()):
        width, rise = 1 + dice.up_to_any_size(WIDEST - 1), dice.up_to_any_size(LARGEST_RISE)
        steepest, t = 3 * unit(s) * rise // width, dice.between(1, width - 1)
        left, right = dice.between(0, steepest), dice.between(0, steepest)
        where = where_is(*quotient(s, width, rise, left, right, t))
        if left != right and wanted.get(where):
            wanted[where] -= 1
            yield width, rise, left, right, t


def beside_a_whole(over, under):
    """Whether a quotient is whole, just above a whole number, just below, or none of these."""
    return rounded(over, under)[1]


def beside_a_half(over, under):
    """The same of a half."""
    return beside_a_whole(2 * over + under, 2 * under)


def rising_and_falling(dice, width, rise, left, right, t):
    """Lines that check such a piece and evaluate it at its position, which is the count 0, and then its mirror image."""
    yield row(b"knots", (-t, width - t))
    for sign in (1, -1):
        yield from piece_as_table(dice.between(-9, 9), sign * rise, sign * left, sign * right)
        yield from check_and_at(0)


def rounding():
    """Inner positions where the quotient is whole, or just above a whole number, or just below, rising and falling."""
    dice = Dice(14)
    for numbers in pieces_to_round(FIRST_S, dice, {"whole": 12, "above": 12, "below": 12}, beside_a_whole):
        yield from rising_and_falling(dice, *numbers)


def halfway(s, width, rise):
    """Lines that evaluate a piece with the same slope at both ends halfway along, from an even and an odd value on either side of 0, rising and falling."""
    yield row(b"knots", (0, width))
    for sign, value in product((1, -1), (-2, -1, 0, 1)):
        slope = sign * (unit(s) * rise // width)
        yield from piece_as_table(value, sign * rise, slope, slope)
        yield from check_and_at(width // 2)


def halves():
    """Inner positions where the value is a half, or just above a half, or just below. Rising and falling."""
    for width, rise in product((2, 6, WIDEST), (1, 3, 1025, LARGEST_RISE - 1)):
        yield from halfway(FIRST_S, width, rise)
    dice = Dice(18)
    for numbers in pieces_to_round(FIRST_S, dice, {"above": 12, "below": 12}, beside_a_half):
        yield from rising_and_falling(dice, *numbers)


def halves_past_floats():
    """Quotients so near below a half that 64-bit floats take them for it, so that they would go up, rising and then falling."""
    for width, rise, left, right, t in (
        (1018, 927894, 7232, 669331, 971),
        (718, 725574, 31566, 378577, 649),
        (934, 1043517, 603647, 614310, 421),
        (1014, -859432, -59720, -462867, 527),
        (726, -993259, -1227175, -300006, 635),
        (774, -776725, -112596, -584543, 503),
    ):
        yield row(b"knots", (0, width))
        yield from piece_as_table(0, rise, left, right)
        yield from check_and_at(t - 1, t, t + 1)


def past_floats():
    """Quotients so near below a whole number that 64-bit floats take them for it, rising and then falling: rounded down or up, they would be another."""
    for width, rise, left, right, t in (
        (805, 1036744, 61365, 539023, 674),
        (721, 722811, 461213, 460402, 318),
        (921, 731816, 200885, 503513, 674),
        (793, -927124, -441651, -223428, 134),
        (857, -757676, -244833, -579821, 574),
        (749, -894332, -441983, -551266, 382),
    ):
        yield row(b"knots", (0, width))
        yield from piece_as_table(0, rise, left, right)
        yield from check_and_at(t - 1, t, t + 1)


# ---- pieces that are not monotone


def border():
    """Two points, with slopes at the border of what is accepted and beside it."""
    dice = Dice(15)
    for width, rise in ((1, 1), (2, 3), (7, 1000), (1024, 5), (1023, LARGEST_RISE), (1024, LARGEST_RISE)):
        three, four = (times * unit(FIRST_S) * rise // width for times in (3, 4))
        lefts = (dice.between(0, three), dice.between(three, four), four)
        yield row(b"knots", (0, width))
        for sign in (1, -1):
            yield row(b"values", (0, sign * rise))
            for left in lefts:
                for right in right_slopes_at_border(FIRST_S, width, rise, left):
                    yield row(b"slopes", (sign * left, sign * right))
                    yield from check_and_at(width // 2)


def steepest():
    """Slopes at the ends of 32 bits, and slopes so steep that the squares of some a and b end in 64 zeros."""
    ends = list(product((I32_MIN, 0, I32_MAX), repeat=2))
    powers = [pair for power in (22, 27, 30) for pair in ((2**power, 0), (0, 2**power), (2**power, 2**power))]
    for width, rise in product((1, WIDEST), (0, 1, -1, LARGEST_RISE, -LARGEST_RISE)):
        yield row(b"knots", (0, width))
        yield row(b"values", (0, rise))
        for pair in ends + powers:
            yield row(b"slopes", pair)
            yield from check_and_at(width)


def among_steep_ones(rise, pairs):
    """A piece of width 1 at each place of tables of 1 to 4 pieces, with each of these pairs of slopes at its ends.

    The other pieces are so steep that they are accepted with any of them that goes their way.
    """
    for count in range(1, 5):
        for place, sign in product(range(count), (1, -1)):
            knots = sums(with_step([4] * count, place, 1))
            yield row(b"knots", knots)
            yield row(b"values", sums(with_step([sign * 1000] * count, place, sign * rise)))
            for left, right in pairs:
                yield row(b"slopes", [0] * place + [sign * left, sign * right] + [0] * (count - 1 - place))
                yield from check_and_at(1, knots[-1] - 1)


def past_the_border():
    """The last slopes that a piece of rise 1 is accepted with, and those one step past them."""
    yield from among_steep_ones(1, ((768, 768), (1024, 256), (256, 1024), (768, 0), (0, 768)))
    yield from among_steep_ones(1, ((769, 768), (768, 769), (769, 0), (0, 769), (1025, 256), (256, 1025)))
    yield from among_steep_ones(1, ((1024, 255), (1024, 257), (255, 1024), (257, 1024)))


def slopes_on_a_level():
    yield from among_steep_ones(0, ((0, 0), (1, 0), (0, 1), (1, 1), (1, -1)))


def in_turn(count, rise):
    """So many rises, up and down in turn."""
    return [(-1) ** place * rise for place in range(count)]


def against_the_rise():
    """A slope of one against a rise at each place of tables of 1 to 5 pieces, where all others are 0."""
    for count, rise in product(range(1, 6), (9, -9)):
        yield row(b"knots", sums([2] * count))
        yield row(b"values", sums(in_turn(count, rise)))
        for point, slope in product(range(count + 1), (1, -1)):
            yield row(b"slopes", with_step([0] * (count + 1), point, slope))
            yield from check_and_at(1, 2 * count - 1)


def bends_among_ten():
    """Each of ten pieces not monotone, then each two of some of them, then all: the first is named."""
    rises = in_turn(10, 9)
    yield from table(range(11), sums(rises), [0] * 11)
    yield from check_and_at(0, 5, 10)
    for places in (*combinations(range(10), 1), *combinations((0, 1, 4, 8, 9), 2), range(10)):
        # A slope of one against the rise at a piece's left end goes the way of the piece before it.
        yield row(b"slopes", [-rises[place] // 9 if place in places else 0 for place in range(11)])
        yield from check_and_at(0, 5, 10)


# ---- the order of the causes


def order_of_causes():
    """Bad widths, bad rises and pieces that bend, early and late, or none, and positions inside and outside."""
    all_knots = [sums(TEN_WIDTHS), *(sums(with_step(TEN_WIDTHS, place, 0)) for place in (0, 5, 9))]
    all_values = [sums(TEN_RISES), *(sums(with_step(TEN_RISES, place, 1048577)) for place in (0, 5, 9))]
    built = built_slopes(FIRST_S, all_knots[0], all_values[0])
    all_slopes = [built, *(with_step(built, point, slope) for point, slope in ((0, -1), (5, -1), (10, 1)))]
    for knots, values, slopes in product(all_knots, all_values, all_slopes):
        yield from table(knots, values, slopes)
        yield from check_and_at(-1, 0, 20, knots[-1], knots[-1] + 1)


def every_fault():
    """Each of four pieces sound, too wide, rising or falling too far, or not monotone: asked, changed at no cost, built."""
    sound, wide, far, bent = range(4)
    rises = in_turn(4, 9)
    for kinds in product((sound, wide, far, bent), repeat=4):
        knots = sums([1025 if kind == wide else 2 for kind in kinds])
        values = sums([rise // 9 * 1048577 if kind == far else rise for kind, rise in zip(kinds, rises)])
        # As in bends_among_ten: such a slope goes the way of the piece before.
        slopes = [*(-rise // 9 if kind == bent else 0 for kind, rise in zip(kinds, rises)), 0]
        yield from table(knots, values, slopes)
        yield from check_and_at(knots[1])
        yield from (b"change 2 %d %d" % (knots[2], values[2]), b"build", b"show slopes")


def unequal_lengths():
    """Each list of each length from 0 to 3: with good numbers, and with nothing but faults."""
    good, bad = ((0, 1, 2), (0, 1, 4), (256, 384, 768)), ((0, 0, 0), (0, 1048577, 0), (-1, -1, -1))
    for knots, values, slopes in good, bad:
        for knot_count, value_count in product(range(4), repeat=2):
            yield row(b"knots", knots[:knot_count])
            yield row(b"values", values[:value_count])
            for slope_count in range(4):
                yield row(b"slopes", slopes[:slope_count])
                yield from check_and_at(1, 3)


def wrapped_differences():
    """Two knots, then two values, whose difference would be a good one, or of the other sign, in 32 bits."""
    for pair in ((I32_MAX, I32_MIN), (I32_MIN, I32_MAX), (I32_MAX - 9, I32_MIN + 9), (-1, I32_MAX), (I32_MIN, 1)):
        yield from table(pair, (0, 1), (0, 0))
        yield from check_and_at(*pair)
        yield from table((0, 1), pair, (0, 0))
        yield from check_and_at(0, 1)


def faults_of_the_line():
    """A fault of the line comes before any refusal."""
    for three in (((0, 1), (0, 1), (0,)), ((0,), (0,), (0,)), ((0, 0), (0, 1), (0, 0)), ((0, 1), (0, 1), (-1, 0))):
        yield from table(*three)
        yield from (b"check", b"check 1", b"at 1", b"at", b"at 1 2", b"at x", b"at 2147483648")


# ---- what the lists hold from one call to the next


def left_alone():
    """A table that is accepted, and one for each refusal: no list changes, whatever is answered."""
    for three in (
        ((3, 5, 9), (-7, 2, 30), (100, 1000, 5)),
        ((3, 5, 9), (-7, 2, 30), (100, 1000)),
        ((3, 5), (-7, 2, 30), (100, 1000, 5)),
        ((3,), (-7,), (100,)),
        ((3, 5, 5), (-7, 2, 30), (100, 1000, 5)),
        ((3, 5, 9), (-7, 2, -2000000), (100, 1000, 5)),
        ((3, 5, 9), (-7, 2, 30), (100, 1000, -5)),
    ):
        yield from table(*three)
        for line in (b"check", b"at 4", b"at 9", b"at 10"):
            yield line
            yield from SHOW_ALL


def one_list_after_another():
    """One list changed, good and bad in turn: each check and each evaluation sees all the lists as they are."""
    yield from table((0, 2, 4, 6), (0, 1, 2, 3), (0, 0, 0, 0))
    for line in (
        b"build", b"values 0 4 8 9", b"build", b"knots 0 1 4 6", b"build", b"knots 0 1 4 4", b"slopes 0 0 0 -1",
        b"knots 0 1 4 7", b"values 0 4 8 7", b"build", b"slopes 0 1 0", b"slopes 0 1 0 0", b"values 9 9 9 9",
        b"values 9 9 9 x", b"slopes 0 0 0 0", b"values -9 -9 -9 -8", b"knots 2 3 4 6",
    ):
        yield line
        yield from check_and_at(0, 3, 5)


# ---- many points, and tables by chance


def small_counts():
    for count in (0, 1, 2, 16, 128):
        yield from table(range(count), wave(count), [0] * count)
        yield from check_and_at(-1, 0, count - 1, count)


def proposed(s, dice, widths, rises):
    """Slopes with which these pieces are accepted: up to three times the gentler, or 0 between a rise and a fall."""
    pieces, slopes = list(zip(widths, rises)), []
    for point in range(len(pieces) + 1):
        around = pieces[max(point - 1, 0) : point + 1]
        slope = dice.between(0, min(3 * unit(s) * abs(rise) // width for width, rise in around))
        if all(rise > 0 for _, rise in around):
            slopes.append(slope)
        else:
            slopes.append(-slope if all(rise < 0 for _, rise in around) else 0)
    return slopes


def any_positions(dice, knots, count):
    return [dice.between(knots[0], knots[-1]) for _ in range(count)]


def most_points():
    """1024 points with slopes by chance. Then one is against the rise: at the last piece, at another, at the first."""
    dice = Dice(16)
    widths = [dice.up_to_any_size(WIDEST) for _ in range(1023)]
    rises = [(-1) ** (place // 7) * dice.up_to_any_size(9999) for place in range(1023)]
    knots, values, slopes = sums(widths, -50000), sums(rises), proposed(FIRST_S, dice, widths, rises)
    yield from table(knots, values, slopes)
    yield from check_and_at(*beside(knots[place] for place in (0, 1, 255, 256, 511, 512, 513, 1022, 1023)))
    yield from check_and_at(*any_positions(dice, knots, 20))
    for point in (1023, 600, 0):
        yield row(b"slopes", with_step(slopes, point, -rises[min(point, 1022)]))
        yield from check_and_at(knots[0] - 1, knots[0], knots[512] + 1, knots[1023])
    yield b"build"
    yield from check_and_at(*any_positions(dice, knots, 20))


def far_faults():
    """A bend in the last piece of 1024 points, then a bad rise there, then a bad width."""
    yield from table(range(1024), digits(1024), [0] * 1024)
    yield from check_and_at(-1, 0, 512, 1023, 1024)
    yield row(b"slopes", with_step([0] * 1024, 1023, I32_MIN))
    yield from check_and_at(0, 1023, 1024)
    yield row(b"values", with_step(digits(1024), 1023, I32_MIN))
    yield from check_and_at(0, 1023, 1024)
    yield row(b"knots", [*range(1023), 1022])
    yield from check_and_at(0, 1023, 1024)


def too_many_points():
    """1025 points: all good, and then nothing but faults."""
    yield from table(range(1025), digits(1025), [0] * 1025)
    yield from check_and_at(0, 1024, 1025)
    yield from table([0] * 1025, [0] * 1025, [1] * 1025)
    yield from check_and_at(0, 1)


def by_chance():
    """Runs of rises and of falls anywhere in 32 bits, with slopes that are accepted but for one now and then."""
    dice = Dice(17)
    for _ in range(80):
        count = dice.between(1, 6)
        widths = [dice.up_to_any_size(WIDEST) for _ in range(count)]
        first, run = dice.between(0, 1), dice.between(1, 3)
        rises = [(-1) ** (first + place // run) * dice.up_to_any_size(LARGEST_RISE) for place in range(count)]
        knots, slopes = somewhere(dice, widths), proposed(FIRST_S, dice, widths, rises)
        if dice.between(0, 3) == 0:
            slopes[dice.between(0, count)] += dice.between(-2000, 2000)
        yield from table(knots, somewhere(dice, rises), slopes)
        yield from before_and_after_build(*any_positions(dice, knots, 5))


GROUPS = (
    ("The evaluations of document 01.", figures),
    ("Every position of small tables.", every_position),
    ("Pieces that rise, fall and rest.", rise_fall_and_rest),
    ("Level tables.", levels),
    ("Every position of small pieces.", small_pieces),
    ("Positions in the largest pieces.", largest_pieces),
    ("Positions and values at the ends of 32 bits.", ends_of_32_bits),
    ("Values just at, above and below a whole number.", rounding),
    ("Values so near a whole number that floats take them for it.", past_floats),
    ("Slopes at the border of what is accepted.", border),
    ("The steepest slopes.", steepest),
    ("One piece at the border and past it, at each place.", past_the_border),
    ("A slope on a level piece, at each place.", slopes_on_a_level),
    ("A slope against the rise, at each place.", against_the_rise),
    ("One or several of ten pieces not monotone: the first is named.", bends_among_ten),
    ("Several causes: widths before rises, rises before pieces, pieces before the position.", order_of_causes),
    ("Every fault, or none, at each of four pieces.", every_fault),
    ("Lists to check of each length from 0 to 3.", unequal_lengths),
    ("Differences to check that would wrap in 32 bits.", wrapped_differences),
    ("Faults of the line before refusals.", faults_of_the_line),
    ("Checks and evaluations change no list.", left_alone),
    ("One list changed after another, and checked.", one_list_after_another),
    ("Tables of 0 to 128 points, checked.", small_counts),
    ("1024 points, accepted and not.", most_points),
    ("Faults in the last piece of 1024 points.", far_faults),
    ("1025 points, checked.", too_many_points),
    ("Evaluations by chance.", by_chance),
)
