"""Tables on which the program and the reference are compared: one point changed, or one after another.

Most are changed over slopes that no build gives, so that a slope which is not renewed is seen, and so is one which
should have stayed. A look at the lists tells what a change did, and that a refused one did nothing.
"""
from itertools import product

from dice import Dice, I32_MAX, I32_MIN, I64_MAX, I64_MIN
from evaluations import any_positions, table
from reference import FIRST_S, LARGEST_RISE, WIDEST, change_refusal, replaced
from tables import (
    BUILD_AND_SHOW, PAST_FLOATS, SHOW_ALL, TEN_RISES, TEN_WIDTHS,
    any_rise, any_width, digits, row, somewhere, sums, with_step,
)


def change(point, knot, value):
    """A line that changes a point."""
    return b"change %d %d %d" % (point, knot, value)


def change_and_show(point, knot, value):
    """Lines that change a point and show what it left in the lists."""
    return change(point, knot, value), *SHOW_ALL


def any_slopes(dice, count):
    """Slopes anywhere in 32 bits, with one at an end of them."""
    slopes = [dice.between(I32_MIN, I32_MAX) for _ in range(count)]
    return replaced(slopes, dice.between(0, count - 1), dice.pick(I32_MIN, I32_MAX))


def apart(dice, count, sign=1):
    """Knots and values of so many points that all rise, or all fall, and that have room between them to be moved."""
    widths = [dice.between(200, 800) for _ in range(count - 1)]
    rises = [sign * dice.between(20000, 900000) for _ in range(count - 1)]
    return somewhere(dice, widths), somewhere(dice, rises)


def moved(dice, point, knots, values):
    """The change of a point of such a table to somewhere near, so that its pieces rise or fall as before."""
    return point, knots[point] + dice.between(-99, 99), values[point] + dice.between(-9999, 9999)


def those_beside(numbers, point):
    """The numbers of the points beside one: two, or one at an end."""
    return [numbers[near] for near in (point - 1, point + 1) if 0 <= near < len(numbers)]


# ---- one point changed


def figures():
    """The changes of document 01, and its pair of knots."""
    for numbers in ((0, 0, -2), (1, 2, 1)):
        yield from table(range(4), (0, 1, 4, 7), [0] * 4)
        yield from BUILD_AND_SHOW
        yield from change_and_show(*numbers)
        yield from BUILD_AND_SHOW
    yield from table((I32_MAX - 1, I32_MAX), (0, 0), (5, 6))
    yield from change_and_show(1, I32_MIN, 0)


def every_point():
    """Each point of tables of 2 to 6 points, rising and falling."""
    dice = Dice(24)
    for count, sign in product(range(2, 7), (1, -1)):
        for point in range(count):
            knots, values = apart(dice, count, sign)
            yield from table(knots, values, any_slopes(dice, count))
            yield from change_and_show(*moved(dice, point, knots, values))


def ends_and_middles():
    """The points near both ends and in the middle of tables of 7 to 64 points, one after another over other slopes."""
    dice = Dice(25)
    for count, sign in ((7, 1), (8, -1), (9, 1), (17, -1), (33, 1), (64, -1)):
        knots, values = apart(dice, count, sign)
        yield row(b"knots", knots)
        yield row(b"values", values)
        for point in sorted({0, 1, 2, count // 2, count - 3, count - 2, count - 1}):
            yield row(b"slopes", any_slopes(dice, count))
            yield from change_and_show(*moved(dice, point, knots, values))


def turned():
    """Each point of five raised and lowered past the points beside it, to their values, and between them."""
    dice = Dice(26)
    for point, sign in product(range(5), (1, -1)):
        knots, values = sums((4, 1, 3, 2)), sums([sign * 10] * 4, 3)
        yield row(b"knots", knots)
        yield row(b"values", values)
        for value in sorted({near + step for near in those_beside(values, point) for step in (-7, 0, 7)}):
            yield row(b"slopes", any_slopes(dice, 5))
            yield change(point, knots[point], value)
            yield b"show slopes"


def levels():
    """Each point of level tables changed along the level, off it, and back to it."""
    for count, level in ((2, 0), (3, 7), (5, -7)):
        yield from table(range(0, 3 * count, 3), [level] * count, range(-1, -count - 1, -1))
        for point in range(count):
            yield change(point, 3 * point + 1, level)
            yield b"show slopes"
        for point in (0, count // 2, count - 1):
            yield change(point, 3 * point, level + 5)
            yield b"show slopes"
            yield change(point, 3 * point, level)
            yield b"show slopes"


def lines():
    """Each point of a straight line moved off it, and back to it: then no slope is rounded."""
    for sign in (1, -1):
        values = sums([sign * 6] * 4)
        yield from table(range(0, 15, 3), values, digits(5))
        for point in range(5):
            yield from (change(point, 3 * point - 1, values[point] + 2), b"show slopes")
            yield from (change(point, 3 * point, values[point]), b"show slopes")


def past_floats():
    """Slopes that 64-bit floats would get wrong, at the changed point, on its left and on its right."""
    for (h1, z1, h2, z2), sign in product(PAST_FLOATS[:3], (1, -1)):
        knots, values = sums((9, h1, h2, 9)), sums((sign * 9, sign * z1, sign * z2, sign * 9))
        for point in (1, 2, 3):
            yield from table(replaced(knots, point, 0), replaced(values, point, 0), digits(5))
            yield change(point, knots[point], values[point])
            yield b"show slopes"


def kept():
    """The knot of each point kept, or its value, or both: the slopes beside it are renewed all the same."""
    dice = Dice(27)
    for count in (2, 5):
        knots, values = apart(dice, count)
        yield row(b"knots", knots)
        yield row(b"values", values)
        for point in range(count):
            knot, value = knots[point], values[point]
            _, new_knot, new_value = moved(dice, point, knots, values)
            # One of the two is kept at each step, and both at the last.
            for numbers in ((knot, new_value), (new_knot, new_value), (new_knot, value), (knot, value), (knot, value)):
                yield row(b"slopes", any_slopes(dice, count))
                yield from change_and_show(point, *numbers)


def beside_their_limits():
    """Each of four points at its neighbours' knots, past them, and 1, 1024 and 1025 counts from them.

    The points are near one another, and then so far apart that a width of 1024 on one side leaves one on the other.
    """
    dice = Dice(28)
    for width, point in product((20, 700), range(4)):
        knots = sums([width] * 3, -width)
        yield from table(knots, sums((9, 5, 8)), any_slopes(dice, 4))
        places = {knot + step for knot in those_beside(knots, point) for step in (0, 1, WIDEST, WIDEST + 1)}
        places |= {knot - step for knot in those_beside(knots, point) for step in (1, WIDEST, WIDEST + 1)}
        for knot in sorted(places):
            yield change(point, knot, 7)
            yield b"show slopes"
        yield from SHOW_ALL


def steepest():
    """Each of four points at the greatest rise and fall from its neighbours, and one more."""
    dice = Dice(29)
    for rise, point in product((5, -5), range(4)):
        values = sums([rise] * 3)
        yield from table(range(0, 12, 3), values, any_slopes(dice, 4))
        sizes = (LARGEST_RISE, LARGEST_RISE + 1)
        places = {value + sign * size for value in those_beside(values, point) for sign in (1, -1) for size in sizes}
        for value in (I32_MIN, *sorted(places), I32_MAX):
            yield change(point, 3 * point + 1, value)
            yield b"show slopes"
        yield from SHOW_ALL


def ends_of_32_bits():
    """Points changed to where knots and values are at the ends of 32 bits, and slopes at their greatest."""
    dice = Dice(30)
    for first_knot, first_value, sign in product((I32_MIN, I32_MAX - 1026), (I32_MIN, I32_MAX), (1, -1)):
        up = 1 if first_value == I32_MIN else -1
        knots = sums((1, 1024, 1)[::sign], first_knot)
        values = sums([up * rise for rise in (LARGEST_RISE, 1, LARGEST_RISE)[::sign]], first_value)
        for point in (0, 3):
            near = 1 if point == 0 else 2
            yield from table(replaced(knots, point, 0), replaced(values, point, 0), any_slopes(dice, 4))
            yield from change_and_show(point, knots[point], values[point])
            yield change(near, knots[near], values[near])
            yield b"show slopes"


def wrapped_differences():
    """A point so far from the other one that their difference would wrap in 32 bits, and near: as knots, as values."""
    ends = (I32_MIN, I32_MIN + 1023, -1, I32_MAX - 1023, I32_MAX)
    yield from table((0, 1), (0, 1), (7, 8))
    for left, right in product(ends, repeat=2):
        yield from (row(b"knots", (left, 0)), change(1, right, 3))
        yield from (row(b"knots", (0, right)), change(0, left, 4), b"show slopes")
    yield row(b"knots", (0, 1))
    for left, right in product(ends, repeat=2):
        yield from (row(b"values", (left, 0)), change(1, 2, right))
        yield from (row(b"values", (0, right)), change(0, 1, left), b"show slopes")


# ---- lengths, counts and points that are not there


def unequal_lengths():
    """Each list of each length from 0 to 3: at a point that is there in some, and at one in none with bad numbers."""
    knots, values, slopes = (0, 1, 2), (0, 1, 4), (7, 8, 9)
    for knot_count, value_count in product(range(4), repeat=2):
        yield row(b"knots", knots[:knot_count])
        yield row(b"values", values[:value_count])
        for slope_count in range(4):
            yield row(b"slopes", slopes[:slope_count])
            yield from (change(1, 1, 3), change(3, -9, I32_MAX))


def one_length_differs():
    """One list of a table of five points longer or shorter, by one or by more, or empty: nothing changes."""
    good = {b"knots": (0, 2, 4, 6, 8), b"values": (0, 1, 4, 9, 16), b"slopes": (-1, -2, -3, -4, -5)}
    for name, numbers in good.items():
        yield from table(*good.values())
        for count in (0, 1, 3, 4, 6, 7, 10):
            yield row(name, (*numbers, *range(20, 25))[:count])
            yield from change_and_show(3, 5, 11)
            yield change(0, 1, -1)
        yield from SHOW_ALL
        yield row(name, numbers)
        yield from change_and_show(4, 9, 17)


def too_few_points():
    """No point, and one: also where the number is no point's, and where the new knot and value are bad ones."""
    for count in (0, 1):
        yield from table(range(count), range(count), digits(count))
        for point in (-1, 0, 1, 2, I64_MAX, I64_MIN):
            yield change(point, 5, 6)
            yield change(point, I32_MIN, I32_MAX)
        yield from SHOW_ALL


def too_many_points():
    """1025 points and more: also where the number is no point's, and where all the widths are bad ones."""
    for count in (1025, 1026, 2048):
        yield from table(range(count), digits(count), digits(count))
        for point in (-1, 0, 512, 1023, 1024, 1025, 2047, 2048, 2**32):
            yield change(point, point % 2**31, 5)
        yield from SHOW_ALL
    yield row(b"knots", [7] * 2048)
    yield from (change(0, 7, I32_MAX), change(-1, 7, 7), change(2048, 7, 7))
    # The lengths are asked before the count.
    yield row(b"slopes", digits(1024))
    yield from (change(0, 7, 7), change(1024, 7, 7), change(-1, 7, 7))


def no_such_point():
    """Numbers that are no point's. Most would be one's in fewer bits, without their sign, or counted from the end."""
    for count in (2, 5):
        knots, values = sums([4] * (count - 1)), sums([9] * (count - 1))
        yield from table(knots, values, digits(count))
        for point in (
            count, count + 1, 2 * count, -1, -2, 1 - count, -count, -count - 1, 2**7, 2**8, 2**8 + 1, 2**10, 2**15,
            2**16, 2**16 + 1, -(2**8), 1 - 2**8, 1 - 2**16, 2**31 - 1, 2**31, 2**31 + 1, 2**32 - 1, 2**32, 2**32 + 1,
            2**32 + count - 1, 2**32 + count, 1 - 2**32, -(2**31), -(2**32), 2**33 + 1, 2**48 + 1, 2**56, 2**62 + 1,
            I64_MAX, I64_MAX - 1, I64_MIN, I64_MIN + 1, I64_MIN + count - 1,
        ):
            near = point % count
            yield change(point, knots[near] + 1, values[near] + 1)
            yield change(point, I32_MAX, I32_MIN)  # no matter whether these are good ones
        yield from SHOW_ALL
        yield from change_and_show(count - 1, knots[-1] + 1, values[-1] + 1)


# ---- widths and rises as they would be after the change


# Just outside the limits, or such as would be good ones in 32 bits.
BAD_STEPS = ((0, 1048577), (1025, -1048577), (1000 - 2**32, 2**32 - 1000))


def faults_elsewhere():
    """A bad width, then a bad rise, at each of ten pieces, and changes at some points that leave it there."""
    dice = Dice(44)
    for place in range(10):
        width, rise = BAD_STEPS[place % 3]
        for widths, rises in (
            (with_step(TEN_WIDTHS, place, width), TEN_RISES),
            (TEN_WIDTHS, with_step(TEN_RISES, place, rise)),
        ):
            knots, values = somewhere(dice, widths), somewhere(dice, rises)
            yield from table(knots, values, digits(11))
            for point in (0, 1, 5, 9, 10):
                beside = point in (place, place + 1)
                yield change(point, knots[point], values[point] + (0 if beside else 1))
            yield from SHOW_ALL[1:]


def new_faults():
    """Each of eleven points to where it makes a bad width, or a bad rise, on its left, on its right, or both."""
    knots, values = sums(TEN_WIDTHS), sums(TEN_RISES)
    yield from table(knots, values, digits(11))
    for point in range(11):
        for knot in (knots[max(point - 1, 0)], knots[min(point + 1, 10)], I32_MIN):
            yield change(point, knot, values[point])
        for value in (I32_MIN, I32_MAX):
            yield change(point, knots[point], value)
            yield change(point, I32_MAX, value)
    yield from SHOW_ALL
    # Where the values rise so much, one side alone can have too great a rise.
    for sign in (1, -1):
        values = sums([sign * 1000000] * 5)
        yield from table(range(0, 18, 3), values, digits(6))
        for point, step in product(range(6), (-100000, 100000)):
            yield change(point, 3 * point + 1, values[point] + step)
        yield from SHOW_ALL


def bad_places(knots, values, point):
    """Knots and values with which one point makes a good table a bad one.

    The knot is bad, as it is a neighbour's or far off; or the value is; or both are.
    """
    first, *_, last = those_beside(knots, point) * 2
    knot, value = knots[point], values[point]
    return (
        (first, value), (last, value), (I32_MAX, value), (I32_MIN, value), (knot, I32_MAX), (knot, I32_MIN),
        (first, I32_MAX), (last, I32_MIN), (I32_MIN, value + 2000000),
    )


def mended():
    """One point at a bad place changed to a good one: where it was is not asked, and nothing is built from it."""
    dice = Dice(31)
    for count, point in ((2, 0), (3, 1), (6, 0), (6, 2), (6, 5)):
        knots, values = apart(dice, count, dice.pick(1, -1))
        for knot, value in bad_places(knots, values, point):
            yield from table(replaced(knots, point, knot), replaced(values, point, value), any_slopes(dice, count))
            yield change(*moved(dice, point, knots, values))
            yield b"show slopes"
        yield from SHOW_ALL


def half_mended():
    """Two points at bad places, or one whose knot and value are bad: nothing changes until no fault would be left."""
    dice = Dice(32)
    for first, second in ((0, 1), (1, 4), (4, 5)):
        knots, values = apart(dice, 6)
        for (bad_knot, bad_value), (worse_knot, worse_value) in (
            ((I32_MAX, values[first]), (I32_MIN, values[second])),
            ((knots[first], I32_MIN), (knots[second], I32_MAX)),
            ((I32_MIN, values[first]), (knots[second], I32_MAX)),
            ((knots[first], I32_MAX), (I32_MAX, values[second])),
            ((I32_MAX, I32_MIN), (knots[second], values[second])),
        ):
            bad_knots = replaced(replaced(knots, first, bad_knot), second, worse_knot)
            bad_values = replaced(replaced(values, first, bad_value), second, worse_value)
            yield from table(bad_knots, bad_values, any_slopes(dice, 6))
            yield change(second, knots[second], values[second])
            yield change(second, worse_knot, values[second])
            yield change(first, knots[first], bad_value)
            yield change(first, bad_knot, values[first])
            yield change(first, knots[first], values[first])
            yield from SHOW_ALL


def order_of_causes():
    """Bad widths and bad rises, early and late, or none, and changes that add some, that mend some, and of no point."""
    all_knots = [sums(TEN_WIDTHS), *(sums(with_step(TEN_WIDTHS, place, width)) for place, width in ((0, 0), (9, 1025)))]
    all_values = [sums(TEN_RISES), *(sums(with_step(TEN_RISES, place, 2000000)) for place in (0, 9))]
    for knots, values in product(all_knots, all_values):
        yield from table(knots, values, digits(11))
        for point, knot, value in (
            (5, knots[5], values[5]), (5, knots[4], values[5]), (5, knots[6], values[5]), (5, knots[5], I32_MIN),
            (5, knots[6], I32_MAX), (0, knots[1], values[0]), (10, knots[10], I32_MAX), (10, I32_MIN, values[10]),
            (-1, knots[10], values[10]), (11, knots[10], I32_MAX), (11, I32_MIN, 0),
            (0, knots[1] - 2, values[0]), (10, knots[10], values[9]),
        ):
            yield change(point, knot, value)
        yield from SHOW_ALL
    # Document 01's: a bad rise at piece 0 and a bad width at piece 9, here made by a change of either.
    yield from table(all_knots[0], all_values[1], digits(11))
    yield change(10, all_knots[0][9], 0)
    yield from table(all_knots[2], all_values[0], digits(11))
    yield change(0, 0, -2000000)
    yield from SHOW_ALL


def faults_of_the_line():
    """A fault of the line comes before any refusal, and changes nothing."""
    for three in (
        ((0, 1), (0, 1), (0,)), ((0,), (0,), (0,)), ((0, 0, 1), (0, 1, 2), (7, 8, 9)), ((0, 1), (0, 2000000), (7, 8)),
        ((0, 2, 4), (0, 5, 6), (7, 8, 9)),
    ):
        yield from table(*three)
        for tail in (
            b"", b" 1 3", b" 1 3 3 3", b" x 3 3", b" 1 x 3", b" 1 3 x", b" 9223372036854775808 3 3", b" 1 2147483648 3",
            b" 1 3 -2147483649", b" 9 3 x", b" -1 3", b" 1 0 3.0",
        ):
            yield b"change" + tail
        yield from SHOW_ALL


# ---- one change after another


def good_knot(dice, knots, point):
    """A knot with which a point of a good table is a good one: between those beside it, or not too far from the one."""
    far = dice.pick(9, 99, WIDEST)
    if point == 0:
        return knots[1] - dice.between(1, far)
    if point == len(knots) - 1:
        return knots[-2] + dice.between(1, far)
    left, right = knots[point - 1], knots[point + 1]
    return dice.between(max(left + 1, right - WIDEST), min(right - 1, left + WIDEST))


def good_value(dice, values, point):
    """A value with which a point of a good table is a good one: between those beside it, or more or less past them."""
    low, high = min(those_beside(values, point)), max(those_beside(values, point))
    past = min(dice.pick(1, 9, 999, LARGEST_RISE), LARGEST_RISE - (high - low))
    return dice.between(low - past, high + past)


def any_change(dice, knots, values):
    """A change of a good table: good ones at any point, the ends more often, and now and then one that is refused."""
    last, kind = len(knots) - 1, dice.between(0, 11)
    point = dice.pick(0, last, dice.between(0, last), dice.between(0, last))
    knot, value = good_knot(dice, knots, point), good_value(dice, values, point)
    if kind == 0:
        return dice.pick(-1, last + 1, 2**32 + point), knot, value
    if kind == 1:
        return point, dice.pick(*those_beside(knots, point)) + dice.pick(0, 1025, -1025), value
    if kind == 2:
        return point, knot, dice.pick(*those_beside(values, point)) + dice.pick(1, -1) * (LARGEST_RISE + 1)
    return point, knot, value


def after(knots, values, *numbers):
    """The knots and the values that a change leaves, refused or not."""
    if change_refusal(FIRST_S, knots, values, [0] * len(knots), *numbers):
        return knots, values
    point, knot, value = numbers
    return replaced(knots, point, knot), replaced(values, point, value)


def any_changes(dice, knots, values, count):
    """So many changes, each of the points that those before it leave."""
    for _ in range(count):
        numbers = any_change(dice, knots, values)
        yield numbers
        knots, values = after(knots, values, *numbers)


def by_steps(dice, count):
    """Knots and values of a good table of so many points, with small steps and large ones."""
    widths = [dice.up_to_any_size(40) for _ in range(count - 1)]
    turn = dice.pick(2, 5, 100)
    rises = [(-1) ** (place // turn) * dice.up_to_any_size(9999) for place in range(count - 1)]
    return sums(widths, dice.between(-99, 99)), sums(rises, dice.between(-99, 99))


def built(knots, values):
    """Lines that set a table and build it."""
    return *table(knots, values, digits(len(knots))), *BUILD_AND_SHOW


def chain(dice, count, length):
    """A table of so many points, built and then changed so many times. The build at last finds the slopes as they are."""
    knots, values = by_steps(dice, count)
    yield from built(knots, values)
    for numbers in any_changes(dice, knots, values, length):
        yield from change_and_show(*numbers)
    yield from BUILD_AND_SHOW


def chains():
    """Tables of 2 to 40 points."""
    dice = Dice(33)
    for count, length in ((2, 12), (2, 8), (3, 12), (3, 8), (4, 12), (5, 12), (6, 16), (24, 16), (40, 20)):
        yield from chain(dice, count, length)


def again_and_again():
    """The same point changed again and again, with refusals in between, at last the table again."""
    dice = Dice(34)
    for count, point in ((2, 1), (3, 1), (5, 0), (5, 2), (5, 4)):
        knots, values = apart(dice, count)
        yield from built(knots, values)
        for _ in range(3):
            yield from change_and_show(*moved(dice, point, knots, values))
            yield change(point, those_beside(knots, point)[0], values[point])
        yield from change_and_show(point, knots[point], values[point])
        yield from BUILD_AND_SHOW


def one_after_the_other():
    """Each point changed in turn, from the first to the last and back: built slopes, and others."""
    dice = Dice(35)
    for count, sign in ((3, 1), (7, -1)):
        knots, values = apart(dice, count, sign)
        for first_slopes in (BUILD_AND_SHOW, (row(b"slopes", any_slopes(dice, count)),)):
            yield from (row(b"knots", knots), row(b"values", values), row(b"slopes", digits(count)), *first_slopes)
            for point in (*range(count), *reversed(range(count - 1))):
                yield change(*moved(dice, point, knots, values))
                yield b"show slopes"
            yield from SHOW_ALL
            yield from BUILD_AND_SHOW


def undone():
    """Each point changed and changed back: over built slopes the table is as before, and a second time too."""
    dice = Dice(36)
    for count in (2, 4):
        knots, values = apart(dice, count, -1)
        yield from built(knots, values)
        for point in range(count):
            yield from change_and_show(*moved(dice, point, knots, values))
            yield from change_and_show(point, knots[point], values[point])
        # Three changes, undone in the other order.
        for point in (0, 1, count - 1):
            yield change(*moved(dice, point, knots, values))
        yield from SHOW_ALL
        for point in (count - 1, 1, 0):
            yield change(point, knots[point], values[point])
        yield from SHOW_ALL
        yield from BUILD_AND_SHOW


def refused_at_last():
    """Changes of which the last is refused, for each cause: what the others left stays."""
    dice = Dice(37)
    knots, values = apart(dice, 4)
    for line in (
        b"slopes 5 6 7", change(4, 0, 0), change(-1, 0, 0), change(2, knots[0], values[2]),
        change(1, knots[1], I32_MIN), b"change 1 2", b"change 1 2 x",
    ):
        yield from built(knots, values)
        yield change(*moved(dice, 3, knots, values))
        yield change(*moved(dice, 0, knots, values))
        yield line
        yield change(1, I32_MAX, I32_MAX)
        yield from SHOW_ALL


def over_any_slopes():
    """Changes over slopes that no build gives: those that no change came near stay, and may be refused by a check."""
    dice = Dice(38)
    for count, length in ((4, 6), (9, 10), (20, 10)):
        knots, values = by_steps(dice, count)
        yield from table(knots, values, any_slopes(dice, count))
        for numbers in any_changes(dice, knots, values, length):
            yield change(*numbers)
            yield from (b"show slopes", b"check")
        yield from SHOW_ALL
        yield from (*BUILD_AND_SHOW, b"check")


def with_other_commands():
    """Changes with checks, values, the drive's answers and builds in between: each sees the lists as they are."""
    dice = Dice(39)
    for count in (2, 3, 6):
        knots, values = by_steps(dice, count)
        yield from built(knots, values)
        for _ in range(8):
            numbers = any_change(dice, knots, values)
            knots, values = after(knots, values, *numbers)
            yield change(*numbers)
            yield b"check"
            for position in any_positions(dice, knots, 2):
                yield from (b"at %d" % position, b"drive %d" % position)
        yield from (b"piece 1 1 256 256", *SHOW_ALL, *BUILD_AND_SHOW)


def one_list_after_another():
    """One list set between changes, longer and shorter, good and bad: each change sees all the lists as they are."""
    yield from table((0, 2, 4, 6), (0, 1, 4, 9), (-1, -2, -3, -4))
    for line in (
        b"build", b"slopes -5 -6 -7 -8", b"values 0 5 9 90", b"knots 0 3 4 6", b"knots 0 3 4", b"values 0 5 9",
        b"slopes -9 -9 -9", b"knots 0 3 3", b"knots 0 3 5 x", b"knots 0 3 5 8 9", b"slopes -1 -2 -3 -4 -5",
        b"values 1 2 3 4 5",
    ):
        yield line
        yield from change_and_show(2, 5, 8)
        yield from (change(0, -1, 0), change(3, 7, 12), b"show slopes")


# ---- many points, and tables by chance


def most_points():
    """1024 points: changed near both ends and inside, where they are no points' numbers, and where a far one is bad."""
    dice = Dice(40)
    knots = sums([dice.between(3, 9) for _ in range(1023)])
    values = sums([dice.between(9, 99) for _ in range(1023)])
    yield from table(knots, values, range(-1, -1025, -1))
    for point in (0, 2, 255, 256, 511, 513, 1021, 1023):
        yield change(point, knots[point] + 1, values[point] - 5)
        yield b"show slopes"
    for point in (1, 257, 512, 1022):
        yield change(point, knots[point] + 2, values[point] + 5)
    yield from SHOW_ALL
    yield from (change(1024, knots[-1], 0), change(1025, 0, 0), change(1023, knots[1020], 0), change(0, 0, 2000000))
    yield from (change(1023, knots[-1], I32_MIN), change(512, knots[300], 0), change(600, knots[600], I32_MIN))
    yield row(b"values", with_step(values, 1023, I32_MAX))
    yield from (change(0, 0, 0), change(1022, knots[1022], values[1022]), change(1023, knots[1021], 0))
    yield change(1023, knots[1023] + 1, values[1023])
    yield from SHOW_ALL


def small_by_chance():
    """Small tables over any slopes, bad ones now and then, and two changes of each."""
    dice = Dice(41)
    for _ in range(26):
        count = dice.between(2, 7)
        widths, rises = [any_width(dice) for _ in range(count - 1)], [any_rise(dice) for _ in range(count - 1)]
        if dice.between(0, 1):
            rises = [abs(rise) for rise in rises]  # no change of sign, so that inner slopes are not 0
        knots, values = somewhere(dice, widths), somewhere(dice, rises)
        yield from table(knots, values, any_slopes(dice, count))
        for _ in range(2):
            point = dice.between(0, count - 1)
            left, right = knots[max(point - 1, 0)], knots[min(point + 1, count - 1)]
            knot = dice.pick(left + any_width(dice), right - any_width(dice), (left + right) // 2, knots[point])
            value = dice.pick(*those_beside(values, point), values[point]) + any_rise(dice)
            yield from change_and_show(point, max(I32_MIN, min(knot, I32_MAX)), max(I32_MIN, min(value, I32_MAX)))


# ---- how a change is written


def dress():
    """Numbers with leading zeros, -0, blanks and CRs: each is seen in the lists. With a fault nothing changes."""
    yield from table((-20, 0, 20), (5, 6, 7), (-7, -8, -9))
    for words in (
        b"1 -0 -0", b"-0 -19 4", b"-000 -18 4", b"0000000001 007 -007", b"2 0021 -0008", b"1 1 0", b"00 -017 0",
        b"%b1 %b3 -%b2" % (b"0" * 30, b"0" * 30, b"0" * 30), b"%b2 %b22 %b9" % (b"0" * 300, b"0" * 300, b"0" * 300),
        b"-%b -%b -%b" % (b"0" * 25, b"0" * 25, b"0" * 25),
    ):
        yield b"change " + words
        yield from SHOW_ALL
    for line in (
        b"change\t1\t2\t8", b"  change   1  3    9", b"\tchange 1 \t 4\t \t8 \t", b"change 1 5 9\r",
        b"change 1 6 8 \t\r", b"change 1 7 9 \r\r", b"change 1 7 9\r\r", b"change 1\r7 9", b"change 1 7\r9",
        b"\rchange 1 7 9", b"change\r1 7 9", b"#change 1 7 9", b" #change 1 7 9", b"change 1 7 9 #", b"change 1 7 #9",
        b"change# 1 7 9", b"change 1 7", b"change 1 7 9 9", b"change change 1 7 9", b"change 1,7,9", b"change 1 7 9,",
        b"change 1 +7 9", b"change 1 7 9.0", b"change 1 7 9",
    ):
        yield line
        yield from SHOW_ALL[:2]


def too_wide_elsewhere():
    """A width that is too large, at each piece, and each point changed to what it is: the values rise as widths may, and tell nothing of it."""
    for wide, point in product(range(5), range(6)):
        knots = sums([WIDEST + 1 if piece == wide else 1 for piece in range(5)], 0)
        yield from table(knots, range(6), [0] * 6)
        yield from change_and_show(point, knots[point], point)


# ---- the slopes at the ends, which request 2 takes from three points


def end_figures():
    """Changes of built tables with the slope of an end that is not beside the point and follows it, on the left and on the right."""
    for knots, values, numbers in (
        (range(3), (0, 0, 1), (0, 0, 1)), (range(3), (1, 0, 0), (2, 2, 1)),
        (range(4), (0, 1, 1, 1), (2, 2, 2)), (range(4), (1, 1, 1, 0), (1, 1, 2)),
    ):
        yield from built(knots, values)
        yield from change_and_show(*numbers)


def small_ends():
    """Every two of some small pieces side by side, as the points at both ends are changed.

    Opposite rises have opposite slopes, so that of each two pieces and their opposites only one is there, by turns of rises and falls.
    """
    pieces = list(product(range(1, 5), range(-6, 7)))
    some = [(width, rise) for width, rise in pieces if (rise >= 0 if (width + rise) % 2 == 0 else rise <= 0)]
    yield from table((-1, 0, 1), (0, 0, 0), digits(3))
    for h1, z1 in some:
        yield change(0, -h1, -z1)
        for h2, z2 in pieces if z1 else some:
            yield change(2, h2, z2)
            yield b"show slopes"


def near_the_ends():
    """Each point of tables of 2 to 7 points, with rises and falls, changed and then changed to what it is."""
    dice = Dice(48)
    for count in range(2, 8):
        knots = sums([dice.between(4, 9) for _ in range(count - 1)])
        values = sums([dice.pick(1, -1) * dice.between(10, 99) for _ in range(count - 1)])
        yield row(b"knots", knots)
        yield row(b"values", values)
        for point in range(count):
            knots[point] += dice.between(-1, 1)
            values[point] += dice.between(-99, 99)
            for _ in range(2):
                yield row(b"slopes", any_slopes(dice, count))
                yield change(point, knots[point], values[point])
                yield b"show slopes"


def third_points():
    """The third point from either end raised and lowered, so that the end's slope goes from 0 to its bound.

    The pieces are equally wide: the slope is 0 from three times the end's rise on, and at its bound from three times as great a fall on.
    """
    dice = Dice(49)
    for count, rise in ((3, 10), (4, -10), (5, 10), (6, -10), (8, 10)):
        values = sums([rise] * (count - 1))
        for point, near, end in ((2, 1, 0), (count - 3, count - 2, count - 1)):
            way = 1 if values[near] > values[end] else -1
            yield from table(range(0, 2 * count, 2), values, any_slopes(dice, count))
            for step in (31, 30, 29, 0, -29, -30, -31):
                yield change(point, 2 * point, values[near] + way * step)
                yield b"show slopes"


def chains_near_the_ends():
    """The third points from the ends of 3 to 7 points, built and then changed many times. The build at last finds the slopes as they are."""
    dice = Dice(50)
    for count in (3, 4, 5, 6, 7):
        knots, values = by_steps(dice, count)
        yield from built(knots, values)
        for _ in range(8):
            point = dice.pick(2, count - 3)
            numbers = point, good_knot(dice, knots, point), values[point] + dice.between(-9999, 9999)
            knots, values = after(knots, values, *numbers)
            yield change(*numbers)
            yield b"show slopes"
        yield from BUILD_AND_SHOW


GROUPS = (
    ("The changes of document 01.", figures),
    ("Each point of small tables changed.", every_point),
    ("Points near the ends and in the middle of larger tables changed.", ends_and_middles),
    ("Points changed so that rises turn to falls and to levels.", turned),
    ("Points changed on a level, off it and back to it.", levels),
    ("Points moved off a straight line and back to it.", lines),
    ("Slopes beside a change that floats would get wrong.", past_floats),
    ("Changes that keep the knot, the value, or both.", kept),
    ("Points at their neighbours' knots, past them, and as far off as can be.", beside_their_limits),
    ("Points at the greatest rises from their neighbours, and one more.", steepest),
    ("Points changed at the ends of 32 bits.", ends_of_32_bits),
    ("Changes to differences that would wrap in 32 bits.", wrapped_differences),
    ("Lists to change of each length from 0 to 3.", unequal_lengths),
    ("One list longer, shorter or empty, and changed.", one_length_differs),
    ("No point and one point to change.", too_few_points),
    ("More than 1024 points to change.", too_many_points),
    ("Numbers that are no point's.", no_such_point),
    ("Good changes of tables that are bad elsewhere.", faults_elsewhere),
    ("Changes that make widths and rises bad.", new_faults),
    ("Bad points mended by a change.", mended),
    ("Two faults, of which a change mends one.", half_mended),
    ("Several causes of a change: the point before widths, widths before rises.", order_of_causes),
    ("Faults of the line before a change.", faults_of_the_line),
    ("Built tables, changed again and again.", chains),
    ("The same point, changed again and again.", again_and_again),
    ("Each point after the one beside it.", one_after_the_other),
    ("Changes undone.", undone),
    ("Changes of which the last is refused.", refused_at_last),
    ("Tables that are not built, changed again and again.", over_any_slopes),
    ("Changes among other commands.", with_other_commands),
    ("One list set after another, and changed.", one_list_after_another),
    ("1024 points, changed.", most_points),
    ("Changes by chance.", small_by_chance),
    ("Changes in unusual dress.", dress),
)
