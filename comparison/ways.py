"""Tables that the arm follows count by count, from the first knot to the last, whoever proposed their slopes: on no piece may it go against the rise, as request 10 has it.

Each group leaves the workbench in the unit that it has at first.
"""
from changes import built, change
from dice import Dice, I32_MAX, I32_MIN
from evaluations import check_and_at, corner_slopes, piece_as_table, proposed, table
from pieces import both_signs
from reference import unit
from tables import row, somewhere, sums
from units import ALL, and_back, in_unit


def followed(knots):
    """Lines that check the table and evaluate it at each count from its first knot to its last."""
    return check_and_at(*range(knots[0], knots[-1] + 1))


def figures():
    """Tables that tell a statement which says more than is true from request 10's, and such as would back up if they were followed."""
    yield from table((0, 5), (0, 1), (51, 51))  # 0, 0, 0, 1, 1, 1: in order, and not strictly
    yield from followed((0, 5))
    yield from built((0, 1, 2), (0, -1, 0))  # 0, -1, 0: accepted, and not in order as a whole
    yield from followed((0, 2))
    yield from built((0, 3, 6), (0, 10, 20))  # from 7 onto the knot, where it is 10
    yield from followed((0, 6))
    for width, left in (1, 769), (2, 385), (3, 257):  # in order at its counts, and it bends
        yield from both_signs(width, 1, left, 0)
        yield from table((0, width), (0, 1), (left, 0))
        yield from followed((0, width))
    for rise, left in (10, 20000), (-10, -20000), (0, 1000):  # 0, 37, 25, 10 if it were followed; turned over; and off its level
        yield from table((0, 3), (0, rise), (left, 0))
        yield from followed((0, 3))


def opposite_ends():
    """The accident: a change would put a point of a built table to the other end of 32 bits, so that a width wraps to a good one. It is refused, and the way is as before."""
    for knots, point, knot in (
        ((I32_MAX - 3, I32_MAX), 1, I32_MIN), ((I32_MIN, I32_MIN + 3), 0, I32_MAX),
        ((0, 3), 0, I32_MAX), ((0, 3), 1, I32_MIN), ((-3, 0), 0, I32_MIN), ((-3, 0), 1, I32_MAX),
    ):
        yield from built(knots, (0, -10))
        yield from (change(point, knot, (0, -10)[point]), b"show knots", *followed(knots))


def any_way(dice, signs, longest):
    """Widths and rises of 1 to 5 pieces, some of them flat, of which so many counts come in all at most."""
    count = dice.between(1, 5)
    widths = [dice.between(1, longest // count) for _ in range(count)]
    return widths, [dice.pick(*signs) * dice.up_to_any_size(dice.pick(3, 40, 1000000)) for _ in range(count)]


def from_elsewhere():
    """Slopes that are accepted and that no build gives, up and down and level in turn, in each unit."""
    dice = Dice(71)
    for s in ALL:
        yield in_unit(s)
        for _ in range(6):
            widths, rises = any_way(dice, (1, 1, -1, -1, 0), 24)
            knots = somewhere(dice, widths)
            yield from table(knots, somewhere(dice, rises), proposed(s, dice, widths, rises))
            yield from followed(knots)


def one_way():
    """Tables that rise or stay level throughout, and such as fall or stay level, in each unit: first with slopes of their own, then as built."""
    dice = Dice(72)
    for s in ALL:
        yield in_unit(s)
        for sign in (1, -1):
            widths, rises = any_way(dice, (sign, sign, sign, 0), 15)
            knots = somewhere(dice, widths)
            yield from table(knots, somewhere(dice, rises), proposed(s, dice, widths, rises))
            yield from (*followed(knots), b"build", *followed(knots))


def corners():
    """Pieces at the corners of what is accepted, where the cubic comes nearest to going back, in each unit, rising and falling."""
    for s in ALL:
        yield in_unit(s)
        width, rise = 7, (4, 7, 11)[s % 3] * max(1, 7 // unit(s))
        yield row(b"knots", (0, width))
        for left, right in corner_slopes(s, width, rise):
            for sign in (1, -1):
                yield from piece_as_table(-sign * rise, sign * rise, sign * left, sign * right)
                yield from followed((0, width))


def after_changes():
    """Built tables, changed again and again, refused changes among them, and followed after each, in each unit."""
    dice = Dice(73)
    for s in ALL:
        yield in_unit(s)
        knots = sums([dice.between(2, 5) for _ in range(3)])
        yield from built(knots, sums([dice.between(-30, 30) for _ in range(3)]))
        for _ in range(6):
            point = dice.between(0, 3)
            # some knots come onto or past their neighbour's, and such a change is refused
            low, high = knots[max(point - 1, 0)], knots[min(point + 1, 3)]
            knot = dice.between(low, high)
            yield change(point, knot, dice.between(-40, 40))
            if all(knot != other for place, other in enumerate(knots) if place != point):
                knots[point] = knot
            yield from followed(knots)


GROUPS = tuple(
    (title, and_back(group))
    for title, group in (
        ("The figures of request 10.", figures),
        ("Points that a change would put to the ends of 32 bits.", opposite_ends),
        ("The arm's way over tables from elsewhere in each unit.", from_elsewhere),
        ("The arm's way over tables that go one way in each unit.", one_way),
        ("The arm's way at the corners of the accepted region in each unit.", corners),
        ("The arm's way after changes in each unit.", after_changes),
    )
)
