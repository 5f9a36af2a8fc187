"""Wrong programs that come to mind first: where a table carries its slope unit, and where the arm must not back up. A stored case has to tell each of them from the right one.

    python3 comparison/wrong.py

Each is the reference but for a function or two, and is given the stored cases on units, or on the arm's way. Run by itself it counts the
answers that each gives otherwise; comparison/check only asks whether there is one.
"""
import math
from contextlib import contextmanager
from fractions import Fraction
from types import SimpleNamespace
from unittest.mock import patch

import reference
import units
import ways
from groups import grouped
from reference import FIRST_S, GREATEST_S, LARGEST_IN_FLOATS, LISTS, Command, any_s, numbers, refusal
from stored import CASES, EXAMPLE, read

right = SimpleNamespace(**vars(reference))  # the functions as they are, which the wrong ones are made of


# ---- what refuses a unit, and when


def lengths_first(s, *lists):
    return right.count_refusal(FIRST_S, *lists) if len({*map(len, lists)}) > 1 else right.count_refusal(s, *lists)


def counts_first(s, *lists):
    return right.count_refusal(FIRST_S, *lists) or right.unit_refusal(s)


def points_first(s, *lists):
    return right.build_refusal(FIRST_S, *lists) or right.unit_refusal(s)


def pieces_first(s, *lists):
    return right.check_refusal(min(s, FIRST_S), *lists) or right.unit_refusal(s)


def point_first(s, knots, values, slopes, *change):
    """A change that asks for its point before the unit."""
    refused = right.change_refusal(FIRST_S, knots, values, slopes, *change)
    return refused if refused == refusal(7, 0) else right.change_refusal(s, knots, values, slopes, *change)


def piece_in_any_unit(_, width, rise):
    return right.piece_refusal(FIRST_S, width, rise)


def limits_first(s, width, rise):
    return right.piece_refusal(FIRST_S, width, rise) or right.unit_refusal(s)


def taken_for(other):
    """The functions of a program that takes each s for another one."""
    return {"unit_refusal": lambda s: right.unit_refusal(other(s)), "unit": lambda s: right.unit(other(s))}


def modulo(most):
    return taken_for(lambda s: s % most)


def with_a_sign(s):
    return s % 8 if s >= 2**31 else s


def written_all_the_same(workbench):
    """A build that writes the slopes before it refuses the unit."""
    s, workbench.s = workbench.s, min(workbench.s, GREATEST_S)
    answer = reference.Workbench.build(workbench)
    workbench.s = s
    return right.unit_refusal(s) or answer


def changed_all_the_same(workbench, *change):
    s, workbench.s = workbench.s, min(workbench.s, GREATEST_S)
    answer = reference.Workbench.change(workbench, *change)
    workbench.s = s
    return right.unit_refusal(s) or answer


# ---- slopes


def is_bound(h1, z1, h2, z2):
    """Whether the slope at an end is its bound."""
    return z1 * z2 < 0 and h1 * h1 * abs(z2) > (h1 + 2 * h2) * h2 * abs(z1)


def old_bound(s, *piece):
    return right.end_slope(FIRST_S if is_bound(*piece) else s, *piece)


def old_quotient(s, *piece):
    return right.end_slope(s if is_bound(*piece) else FIRST_S, *piece)


def in_the_first_unit(name):
    """The function of this name, which takes every s for document 01's."""
    return {name: lambda _, *given: getattr(right, name)(FIRST_S, *given)}


def shifted_down(s, knots, values):
    return [slope >> FIRST_S - s for slope in right.built_slopes(FIRST_S, knots, values)]


def to_the_nearest(s, knots, values):
    parts = right.unit(FIRST_S - s)
    return [right.nearest(Fraction(slope, parts)) for slope in right.built_slopes(FIRST_S, knots, values)]


def renewed_in_the_first(s, *given):
    return right.changed_table(FIRST_S, *given)


def converted(workbench, s):
    """A unit that converts the slopes that are there, as far as whole slopes come."""
    if max(s, workbench.s) <= GREATEST_S:
        ratio = Fraction(right.unit(s), right.unit(workbench.s))
        workbench.lists[b"slopes"] = [math.trunc(slope * ratio) for slope in workbench.lists[b"slopes"]]
    workbench.s = s
    return "ok"


# ---- values and the drive


def over(s, knots, values, slopes, position):
    """The left value, the numerator and the width of a position, whose piece may be level."""
    left = right.piece_at(knots, position)
    width = knots[left + 1] - knots[left]
    numerator = (right.curve_at(s, knots, values, slopes, position) - values[left]) * right.unit(s) * width**3
    return values[left], int(numerator), width


def odd_half_rounded_up(*given):
    value, numerator, width = over(*given)
    divisor = right.unit(given[0]) * width**3
    return value + (numerator + (divisor + 1) // 2) // divisor


def old_divisor(*given):
    value, numerator, width = over(*given)
    return value + right.nearest(Fraction(numerator, right.unit(FIRST_S) * width**3))


def old_denominator(*given):
    kind, *told = right.drive_at(*given)
    return (kind, *told) if kind == "dwell" else (kind, *told[:2], told[2] * right.unit(FIRST_S) // right.unit(given[0]))


def scaled_limit(s, knots, values, slopes, position):
    refused = right.evaluation_refusal(s, knots, values, slopes, position)
    if refused is not None:
        return refused
    place = right.piece_at(knots, position)
    width, rise = knots[place + 1] - knots[place], values[place + 1] - values[place]
    size = right.unit(s) * abs(rise) * width**3
    return refusal(8, place) if size > right.unit(FIRST_S) * LARGEST_IN_FLOATS else None


# ---- the command


def refused_at_once(workbench, s):
    """A unit that is refused by its own line, and not taken."""
    if s <= GREATEST_S:
        workbench.s = s
    return right.unit_refusal(s) or "ok"


def emptied(workbench, s):
    workbench.s, workbench.lists = s, {name: [] for name in LISTS}
    return "ok"


def forgotten(workbench):
    """A build that leaves the workbench in its first unit."""
    answer = reference.Workbench.build(workbench)
    workbench.s = FIRST_S
    return answer


def unit_read(bits):
    """A unit read as other numbers are, with their faults, and one below 0 taken without its sign."""

    def read(words):
        (s,) = numbers(bits)(words)
        return [s % 2**32]

    return read


# ---- the arm's way


def though_it_bends(s, knots, values, slopes, position):
    """A table that is followed with whatever slopes it has."""
    refused = right.build_refusal(s, knots, values, slopes)
    return refused or (None if knots[0] <= position <= knots[-1] else refusal(6, 0))


def low_at_left_knots(s, knots, values, slopes, position):
    """A value that is right but at each left knot: in order from there to the count before the next."""
    return right.value_at(s, knots, values, slopes, position) - 5 * (position in knots[:-1])


def at_its_counts(s, width, rise, left, right_slope):
    """The verdict on a piece that is looked at from count to count alone."""
    way = [right.curve_at(s, (0, width), (0, rise), (left, right_slope), count) for count in range(width + 1)]
    if rise == 0:
        return "bends" if any(way) else "flat"
    if way != sorted(way, reverse=rise < 0):
        return "bends"
    return "rising" if rise > 0 else "falling"


def none_renewed(s, knots, values, slopes, point, knot, value):
    return right.replaced(knots, point, knot), right.replaced(values, point, value), slopes


def wrapped_differences(numbers_):
    """Differences of 32 bits, as when the gripper went into the tray."""
    return [(step + 2**31) % 2**32 - 2**31 for step in right.differences(numbers_)]


# ---- all of them: of each what is wrong, and either functions of the reference or commands in their place


WRONG_UNITS = (
    ("12 asked after 1", {"count_refusal": lengths_first}),
    ("12 asked after 2", {"count_refusal": counts_first}),
    ("12 asked after 4 of a build", {"build_refusal": points_first}),
    ("12 asked after 5", {"check_refusal": pieces_first}),
    ("12 asked after 7", {"change_refusal": point_first}),
    ("12 asked after 3 and 4 of one piece", {"piece_refusal": limits_first}),
    ("a one-piece call without 12", {"piece_refusal": piece_in_any_unit, "unit": lambda s: 2 ** (s % 64)}),
    ("s = 9 taken for 8", taken_for(lambda s: 8 if s == 9 else s)),
    ("s above 8 taken for 8", taken_for(lambda s: min(s, 8))),
    ("s modulo 16", modulo(16)),
    ("s modulo 32", modulo(32)),
    ("s modulo 64", modulo(64)),
    ("s modulo 256", modulo(2**8)),
    ("s modulo 65536", modulo(2**16)),
    ("s with a sign", taken_for(with_a_sign)),
    ("slopes written where the unit is refused", {b"build": Command(written_all_the_same, numbers())}),
    ("a point changed where the unit is refused", {b"change": Command(changed_all_the_same, numbers(64, 32, 32))}),
    ("256 left in the verdict", in_the_first_unit("verdict")),
    ("768 left in the mean", in_the_first_unit("inner_slope")),
    ("768 left in the end rule's bound", {"end_slope": old_bound}),
    ("256 left in the end rule's quotient", {"end_slope": old_quotient}),
    ("256 left in the secant", in_the_first_unit("secant_slope")),
    ("slopes built with s = 8 and shifted down", {"built_slopes": shifted_down}),
    ("slopes built with s = 8 and rounded to the nearest", {"built_slopes": to_the_nearest}),
    ("slopes that a change renews with s = 8", {"changed_table": renewed_in_the_first}),
    ("slopes converted when the unit changes", {b"unit": Command(converted, any_s)}),
    ("slopes taken in 1/256 by a value", {"value_at": lambda _, *given: right.value_at(FIRST_S, *given)}),
    ("half of an odd divisor rounded up", {"value_at": odd_half_rounded_up}),
    ("256 h^3 left in a value's divisor", {"value_at": old_divisor}),
    ("256 h^3 left in the drive's denominator", {"drive_at": old_denominator}),
    ("slopes taken in 1/256 by the drive", {"drive_at": lambda _, *given: right.drive_at(FIRST_S, *given)}),
    ("the float limit scaled by the unit", {"drive_refusal": scaled_limit}),
    ("a unit refused by its own line", {b"unit": Command(refused_at_once, any_s)}),
    ("lists emptied when the unit changes", {b"unit": Command(emptied, any_s)}),
    ("the first unit again after a build", {b"build": Command(forgotten, numbers())}),
    ("a unit read as a number of 32 bits", {b"unit": Command(reference.Workbench.set_unit, unit_read(32))}),
    ("a unit read as a number of 64 bits", {b"unit": Command(reference.Workbench.set_unit, unit_read(64))}),
)
WRONG_WAYS = (
    ("a table followed though it bends", {"evaluation_refusal": though_it_bends}),
    ("a table neither checked nor refused though it bends", {"verdict": lambda s, width, rise, *slopes: "flat"}),
    ("a piece looked at at its counts alone", {"verdict": at_its_counts}),
    ("values five too low at each left knot", {"value_at": low_at_left_knots}),
    ("values one too high", {"value_at": lambda *given: right.value_at(*given) + 1}),
    ("values strictly in order: one more at each inner count", {"value_at": lambda *given: right.value_at(*given) + (given[4] not in given[1])}),
    ("a change that renews no slope", {"changed_table": none_renewed}),
    ("a change that refuses nothing and renews no slope", {"change_refusal": lambda *given: None, "changed_table": none_renewed}),
    ("differences of 32 bits", {"differences": wrapped_differences}),
)
# of each set what its programs are wrong about, the groups of cases that they are given, and the programs
SETS = (("units", units.GROUPS, WRONG_UNITS), ("the arm's way", ways.GROUPS, WRONG_WAYS))


def told(lines, expected, changed, enough=math.inf):
    """How many answers are not the expected ones with these functions and commands changed, one after another. Where there are enough it stops."""
    count, workbench = 0, reference.Workbench()
    functions = {name: new for name, new in changed.items() if isinstance(name, str)}
    commands = {name: new for name, new in changed.items() if isinstance(name, bytes)}
    with patch.dict(vars(reference), functions), patch.dict(reference.COMMANDS, commands), forgetting(changed):
        for line, answer in zip(lines, expected):
            count += workbench.answer(line) != answer
            if count >= enough:
                break
    return count


@contextmanager
def forgetting(changed):
    """What the right functions remember may be another program's, before and afterwards."""
    remembering = (right.remembered_refusal, right.verdict) if "unit" in changed else (right.remembered_refusal,)
    for function in remembering:
        function.cache_clear()
    yield
    for function in remembering:
        function.cache_clear()


def stored_cases(wanted):
    """The stored lines of some groups, and what is right."""
    titles = {title for title, _ in wanted}
    lines = [line for title, line in grouped(read(CASES), read(EXAMPLE)) if title in titles]
    return lines, [*map(reference.Workbench().answer, lines)]


def first_fault():
    """A sentence on the first wrong program that no stored case tells, or None."""
    for about, wanted, programs in SETS:
        cases = stored_cases(wanted)
        for what, changed in programs:
            if not told(*cases, changed, enough=1):
                return f"no stored case on {about} tells a program that has this wrong: {what}"
    return None


def main():
    for about, wanted, programs in SETS:
        cases = stored_cases(wanted)
        print(f"wrong: {sum(answer is not None for answer in cases[1])} stored answers on {about}")
        for what, changed in programs:
            print(f"{told(*cases, changed):6}  {what}")


if __name__ == "__main__":
    main()
