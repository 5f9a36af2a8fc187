#!/usr/bin/env python3
"""What the program `calls` must print: calls of the libraries that the workbench does not make or does not show.

Each line is a function, what it was given, and what it answers.
"""
import re
from fractions import Fraction
from itertools import accumulate, chain, cycle, islice, product

from reference import (
    build_refusal, check_refusal, drive_at, drive_refusal, evaluation_refusal, nearest, piece_at, value_at, words_of,
)

KNOTS, VALUES, SLOPES = (0, 2, 5), (7, 9, 9), (256, 0, 0)
BEND = (9, 7, 7)  # values with which the first piece bends
S = 8
UNLIKE = (0, 3, 5), (7, 17, 17), (10, 0, 0)  # a table that is accepted where a slope is a whole value, and in finer units, and has other values there
LEAST, MOST = -(2**63), 2**63 - 1


# Around 0, 2^62, below which a sum with a half of any number fits, and the ends of 64 bits; and divisors, odd and even ones, and some that are not positive.
NUMBERS = (*range(-3, 4), 7, *(sign * 2**62 + step for sign in (-1, 1) for step in (-2, -1, 0, 1)), LEAST, LEAST + 1, MOST - 1, MOST)
DIVISORS = (1, 2, 3, 4, 5, MOST - 1, MOST, 0, -1, -2, LEAST)


def quotients():
    for n, d in ((7, 1), (7, 0), (-7, 0), (7, -2), (-1, 4), (-9, 4), (LEAST, 1), (LEAST, -1)):
        yield f"floor_div {n} {d} {n // d if d > 0 else 0}"
    for n, d in product(NUMBERS, DIVISORS):
        yield f"nearest_div {n} {d} {nearest(Fraction(n, d)) if d > 0 else 0}"


def found(text, start, byte):
    place = text.find(byte, start)
    return max(len(text), start) if place < 0 else place


def finds():
    for text, start, byte in (("abc", 0, "c"), ("abc", 0, "x"), ("abc", 5, "a")):
        yield f"find '{text}' {start} {ord(byte)} {found(text, start, byte)}"


def next_word(line, start):
    word = re.compile("[^ \t]+").search(line, start)
    return f"{word.start()} {word.end()}" if word else "nothing"


def next_words():
    for line, start in (("ab", 0), (" ab c", 2), ("ab ", 2)):
        yield f"next_word '{line}' {start} {next_word(line, start)}"
    for start in (0, 1, 9):
        yield f"count 'ab c' {start} {len(words_of(b'ab c'[start:]))}"


def parts():
    for start, end in ((1, 2), (1, 4), (1, 9), (2, 1), (5, 7)):
        yield f"part 'abc' {start} {end} {'abc'[start:end]}"


def reads():
    for text in ("", "-"):
        yield f"whole '{text}' {int(text) if re.fullmatch('-?[0-9]+', text) else 'no number'}"


def buffers():
    """Three bytes put behind so many of a buffer of four."""
    for held in (0, 1, 2, 3, 4, 6):
        joined = ("...."[:held] + "abc")[:4]
        yield f"append '{joined + '....'[len(joined):]}' {held} {len(joined)}"


def given(refused):
    """A refusal's number and place, 0 and 0 where there is none."""
    return "0 0" if refused is None else "{} {}".format(*re.findall("[0-9]+", refused)[:2])


def at(s, knots, values, slopes, position):
    table = s, knots, values, slopes
    refused = evaluation_refusal(*table, position)
    yield f"locate {s} {position} {given(refused)} {0 if refused else piece_at(knots, position)}"
    yield f"evaluate {s} {position} {given(refused)} {0 if refused else value_at(*table, position)}"
    refused = drive_refusal(*table, position)
    kind, level, *_ = ("dwell", 0) if refused else drive_at(*table, position)
    told = "dwell at 0" if (kind, level) == ("dwell", 0) else kind
    yield f"float_answer {s} {position} {given(refused)} {told}"


def asked(s, *lists):
    """Whether the points are refused, and the table, and what is answered at each of some positions in it and outside."""
    yield f"points {s} {given(build_refusal(s, *lists))}"
    yield f"check {s} {given(check_refusal(s, *lists))}"
    for position in (0, 2, 5, 6, -1):
        yield from at(s, *lists, position)


def tables():
    yield from asked(S, KNOTS, VALUES, SLOPES)
    yield from at(S, KNOTS, BEND, SLOPES, 3)
    for s in (0, 4, 9, 2**32 - 1):
        knots, values, slopes = UNLIKE
        yield from asked(s, knots, values, slopes)
        yield from asked(s, knots, values, slopes[:2])


def pieces():
    """Level tables of so many points, from 1 on with widths of 1, 2 and 3 in turn: each position is a knot, or beside one, or outside."""
    for count in (2, 3, 4, 5, 31, 32, 33, 1023, 1024):
        knots, level = tuple(accumulate(islice(cycle((1, 2, 3)), count - 1), initial=1)), (0,) * count
        for position in range(2 * count + 1):
            refused = evaluation_refusal(S, knots, level, level, position)
            yield f"locate {position} of {count} points {given(refused)} {0 if refused else piece_at(knots, position)}"


for line in chain(quotients(), finds(), next_words(), parts(), reads(), buffers(), tables(), pieces()):
    print(line)
