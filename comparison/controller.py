#!/usr/bin/env python3
"""What the example controller, examples/controller.c, must print: the same calls, answered by the reference."""
from fractions import Fraction

from reference import (
    build_refusal, built_slopes, change_refusal, changed_table, check_refusal, drive_at, drive_refusal, evaluation_refusal, value_at,
)

S = 8  # the controller's slopes are in 1/256
KNOTS, VALUES = (0, 4, 8, 10, 16), (0, -40, -40, -25, 0)
SUPPLIED = (-2560, 0, 0, 6000, 1066)
CHANGES = ((3, 11, -20), (3, 8, -20), (5, 20, 0))
FAR_KNOTS = (2**31 - 1, -(2**31))


def answer(what, refusal):
    return f"{what}: {refusal or 'done'}"


def shown(slopes):
    return " ".join(["slopes:", *map(str, slopes)])


def arm(*table):
    yield "position,value"
    for position in range(KNOTS[0], KNOTS[-1] + 1):
        assert evaluation_refusal(*table, position) is None
        yield f"{position},{value_at(*table, position)}"


def places(exact):
    """Four places behind the point. Python's own rounding of a fraction is exact."""
    sign = "-" if exact < 0 else ""
    whole = round(abs(exact) * 10000)
    return f"{sign}{whole // 10000}.{whole % 10000:04}"


def told(*table, position):
    refusal = drive_refusal(*table, position)
    if refusal:
        return answer("drive", refusal)
    kind, left, *over = drive_at(*table, position)
    if kind == "dwell":
        return f"drive at {position}: dwell at {places(Fraction(left))}"
    numerator, denominator = over
    return f"drive at {position}: move to {left} + {numerator} / {denominator} = {places(left + Fraction(numerator, denominator))}"


def changes(*table):
    for change in CHANGES:
        refusal = change_refusal(*table, *change)
        if refusal is None:
            table = S, *changed_table(*table, *change)
        yield answer("change", refusal)
        yield shown(table[3])


def lines():
    slopes = built_slopes(S, KNOTS, VALUES)
    table = S, KNOTS, VALUES, slopes
    yield answer("build", build_refusal(*table))
    yield shown(slopes)
    yield answer("check", check_refusal(*table))
    yield from arm(*table)
    for position in (1, 6, 17):
        yield told(*table, position=position)
    yield answer("supplier's slopes", check_refusal(S, KNOTS, VALUES, SUPPLIED))
    yield from changes(*table)
    yield answer("far knots", build_refusal(S, FAR_KNOTS, (0, 0), (0, 0)))


for line in lines():
    print(line)
