"""The reference: an independent workbench that reads commands and writes answers, byte for byte.

It shares nothing with the proved program. It decides by document 01's definition, from the exact
least value of the quadratic over the piece, and not by the test of Fritsch and Carlson. Slopes and
values are worked out with fractions, which are exact, and rounded at the very end. The rules are stated
once, over the s of a table, whose slopes are in units of 1/2^s. The slope at an end is found case by case,
as request 2 tells it. A value is made from the Hermite basis, and not by document
01's line; so is the numerator that the drive is given, and no float is used for it. Every piece is asked
whether a position is its own. For a change of a point all the slopes of the new points are built, and
of each it is asked whether the documents name it as renewed.
"""
import math
import re
import sys
from collections import namedtuple
from fractions import Fraction
from functools import lru_cache

GREATEST_S = 8  # slopes are in units of 1/2^s of a value per count, for an s from 0 to this
FIRST_S = 8  # of a workbench that was told no other
MOST_IN_32_BITS = 2**32 - 1  # the greatest s that can be said, to be refused
WIDEST = 1024
LARGEST_RISE = 1048576
LARGEST_IN_FLOATS = 2**40  # a rise's size times the width cubed, up to which the drive has an exact answer
MOST_POINTS = 1024
LONGEST_LINE = 65536
LONGEST_ROW = 2048  # numbers in one list: more than MOST_POINTS, so that they can be refused
LISTS = (b"knots", b"values", b"slopes")

CAUSES = {
    1: "the lists' lengths differ",
    2: "fewer than 2 or more than 1024 points",
    3: "a width is not in 1 to 1024",
    4: "a rise is outside its limits",
    5: "a piece is not monotone",
    6: "position before the first or after the last knot",
    7: "no point with this number",
    8: "piece too large for the exact float answer",
    12: "the slope unit is not in 0 to 8",
}


# ---- the rules


def unit(s):
    """So many slopes make one value per count, where document 01 has 256."""
    return 2**s


def least_value(Z, a, b):
    """The least value of a + 2(3Z - 2a - b)x + 3(a + b - 2Z)x^2 over 0 <= x <= 1, exactly.

    It lies at an end, or at the vertex where that is inside. The vertex of a quadratic with whole
    coefficients is a fraction k/q, so this is the least over all the fractions of the definition.
    """
    half_linear = 3 * Z - 2 * a - b
    square = 3 * (a + b - 2 * Z)
    places = [Fraction(0), Fraction(1)]
    if square != 0:
        vertex = Fraction(-half_linear, square)
        if 0 < vertex < 1:
            places.append(vertex)
    return min(a + 2 * half_linear * x + square * x * x for x in places)


@lru_cache(maxsize=None)  # as every evaluation judges all the pieces of its table again
def verdict(s, width, rise, left_slope, right_slope):
    """What a piece within its limits is: rising, falling, flat or bends."""
    Z, a, b = unit(s) * rise, left_slope * width, right_slope * width
    if rise > 0:
        return "rising" if least_value(Z, a, b) >= 0 else "bends"
    if rise < 0:
        return "falling" if least_value(-Z, -a, -b) >= 0 else "bends"
    return "flat" if a == 0 and b == 0 else "bends"


def refusal(number, place):
    return f"refused {number} at {place}: {CAUSES[number]}"


def is_width(width):
    return 1 <= width <= WIDEST


def is_rise(rise):
    return -LARGEST_RISE <= rise <= LARGEST_RISE


def differences(numbers):
    """Each number less the one before it: the widths of knots, the rises of values. They never wrap."""
    return [right - left for left, right in zip(numbers, numbers[1:])]


def unit_refusal(s):
    """The cause to refuse an s, or None. It is asked before all others, of a table and of a piece."""
    return None if s <= GREATEST_S else refusal(12, 0)


def piece_refusal(s, width, rise):
    """The first cause to refuse a piece, or None."""
    refused = unit_refusal(s)
    if refused is not None:
        return refused
    if not is_width(width):
        return refusal(3, 0)
    return None if is_rise(rise) else refusal(4, 0)


def count_refusal(s, knots, values, slopes):
    """The first cause to refuse a table before its points are looked at, or None: for its s, then for its lists' lengths."""
    refused = unit_refusal(s)
    if refused is not None:
        return refused
    if not len(knots) == len(values) == len(slopes):
        return refusal(1, 0)
    return None if 2 <= len(knots) <= MOST_POINTS else refusal(2, 0)


def point_refusal(knots, values):
    """The first cause to refuse points for where they are, or None. All the widths are asked before any rise."""
    for number, steps, is_taken in ((3, differences(knots), is_width), (4, differences(values), is_rise)):
        for place, step in enumerate(steps):
            if not is_taken(step):
                return refusal(number, place)
    return None


def build_refusal(s, knots, values, slopes):
    """The first cause to refuse a build of these lists, or None."""
    return count_refusal(s, knots, values, slopes) or point_refusal(knots, values)


def check_refusal(s, knots, values, slopes):
    """The first cause to refuse a table, or None. All that refuses a build is asked before any piece is judged."""
    refused = build_refusal(s, knots, values, slopes)
    if refused is not None:
        return refused
    for place, piece in enumerate(zip(differences(knots), differences(values), slopes, slopes[1:])):
        if verdict(s, *piece) == "bends":
            return refusal(5, place)
    return None


@lru_cache(maxsize=1)
def remembered_refusal(s, *table):
    """What refuses a table, or None: looked for once where position after position is asked of the same one."""
    return check_refusal(s, *table)


def evaluation_refusal(s, knots, values, slopes, position):
    """The first cause to refuse an evaluation, or None. The whole table is checked before the position is looked at."""
    refused = remembered_refusal(s, *map(tuple, (knots, values, slopes)))
    if refused is not None:
        return refused
    return None if knots[0] <= position <= knots[-1] else refusal(6, 0)


def secant_slope(s, width, rise):
    """The slope of the only piece, at both points of a table that has two: rounded toward zero."""
    return math.trunc(Fraction(unit(s) * rise, width))


def end_slope(s, h1, z1, h2, z2):
    """The slope at an end of three points or more, by request 2's words, with the end piece h1, z1 and its neighbour h2, z2: rounded once."""
    quotient = ((2 * h1 + h2) * Fraction(z1, h1) - h1 * Fraction(z2, h2)) / (h1 + h2)
    bound = 3 * Fraction(abs(z1), h1)
    if quotient == 0 or quotient * z1 < 0 or z1 == 0:
        return 0
    if z1 * z2 < 0 and abs(quotient) > bound:
        quotient = bound if z1 > 0 else -bound
    return math.trunc(unit(s) * quotient)


def inner_slope(s, h1, z1, h2, z2):
    """The slope at a point between two pieces, by document 01's line: rounded first, and then given its sign."""
    if z1 * z2 <= 0:
        return 0
    size1, size2 = abs(z1), abs(z2)
    numerator = 3 * unit(s) * (h1 + h2) * size1 * size2
    denominator = (h1 + 2 * h2) * h1 * size2 + (2 * h1 + h2) * h2 * size1
    size = math.floor(Fraction(numerator, denominator))
    return size if z1 > 0 else -size


def built_slopes(s, knots, values):
    """The slopes of a table that is not refused, one for each point."""
    pieces = list(zip(differences(knots), differences(values)))
    if len(pieces) == 1:
        return [secant_slope(s, *pieces[0])] * 2
    inner = [inner_slope(s, *left, *right) for left, right in zip(pieces, pieces[1:])]
    return [end_slope(s, *pieces[0], *pieces[1]), *inner, end_slope(s, *pieces[-1], *pieces[-2])]


def piece_at(knots, position):
    """The piece of a position that is not outside: the one that starts at or before it and ends after it; of the last knot the last."""
    if position == knots[-1]:
        return len(knots) - 2
    (place,) = (place for place, (left, right) in enumerate(zip(knots, knots[1:])) if left <= position < right)
    return place


def curve_at(s, knots, values, slopes, position):
    """The curve's own value where an evaluation is not refused, exactly.

    It is a sum of four: each end's value and each end's slope, times its polynomial of the Hermite basis.
    """
    left = piece_at(knots, position)
    right = left + 1
    width = knots[right] - knots[left]
    x = Fraction(position - knots[left], width)
    return (
        values[left] * (1 + 2 * x) * (1 - x) ** 2
        + values[right] * (3 - 2 * x) * x**2
        + Fraction(slopes[left] * width, unit(s)) * x * (1 - x) ** 2
        + Fraction(slopes[right] * width, unit(s)) * (x - 1) * x**2
    )


def nearest(exact):
    """The whole number nearest to a fraction, by its distance; of two that are as near the upper one, which is looked at first."""
    below = math.floor(exact)
    return min((below + 1, below), key=lambda whole: abs(whole - exact))


def value_at(s, knots, values, slopes, position):
    """The value where an evaluation is not refused: the whole number nearest to the curve's own, a half going up."""
    return nearest(curve_at(s, knots, values, slopes, position))


def drive_refusal(s, knots, values, slopes, position):
    """The first cause to refuse the drive's answer, or None. Only the position's own piece can be too large for it, by the same limit at every s."""
    refused = evaluation_refusal(s, knots, values, slopes, position)
    if refused is not None:
        return refused
    place = piece_at(knots, position)
    width, rise = knots[place + 1] - knots[place], values[place + 1] - values[place]
    return refusal(8, place) if abs(rise) * width**3 > LARGEST_IN_FLOATS else None


def drive_at(s, knots, values, slopes, position):
    """The drive's answer where it is not refused: a dwell and its level, or a move and its three whole numbers.

    These are the left value, and the curve's way up from there as a numerator over document 01's denominator.
    """
    left = piece_at(knots, position)
    if values[left] == values[left + 1]:
        return "dwell", values[left]
    denominator = unit(s) * (knots[left + 1] - knots[left]) ** 3
    numerator = (curve_at(s, knots, values, slopes, position) - values[left]) * denominator
    assert numerator.denominator == 1, "document 01's numerator is a whole number"
    return "move", values[left], int(numerator), denominator


def replaced(numbers, place, number):
    """The same numbers but for one."""
    return [*numbers[:place], number, *numbers[place + 1 :]]


def change_refusal(s, knots, values, slopes, point, knot, value):
    """The first cause to refuse a change, or None. Where the points are is asked as it would be after the change."""
    refused = count_refusal(s, knots, values, slopes)
    if refused is not None:
        return refused
    if not 0 <= point < len(knots):
        return refusal(7, 0)
    return point_refusal(replaced(knots, point, knot), replaced(values, point, value))


def is_renewed(count, point, place):
    """Whether a change of a point of so many renews the slope at a place: document 01 names three, and request 2 those of the ends."""
    return (
        place in (point - 1, point, point + 1)
        or (point == 2 and place == 0)
        or (point == count - 3 and place == count - 1)
    )


def changed_table(s, knots, values, slopes, point, knot, value):
    """The three lists after a change that is not refused: slopes that are renewed are as built, others as they were, in whatever unit."""
    new_knots, new_values = replaced(knots, point, knot), replaced(values, point, value)
    built = built_slopes(s, new_knots, new_values)
    new_slopes = [built[place] if is_renewed(len(slopes), point, place) else slope for place, slope in enumerate(slopes)]
    return new_knots, new_values, new_slopes


# ---- the language


class Fault(Exception):
    """A line that cannot be obeyed; its text is the reason."""


def lines_of(data):
    """The lines of an input, each without its LF, its CR LF, or a CR at the very end."""
    lines = data.split(b"\n")
    if not lines[-1]:
        lines.pop()  # an input that ends in LF has no further line
    return [line[:-1] if line.endswith(b"\r") else line for line in lines]


def is_silent(line):
    """Whether a line gives no answer: a comment, or one without a word, unless it is too long."""
    return len(line) <= LONGEST_LINE and (line.startswith(b"#") or not line.strip(b" \t"))


def words_of(line):
    return [word for word in re.split(rb"[ \t]+", line) if word]


def read_whole(word, place):
    """The whole number that a word writes, number PLACE of its line. One that 64 bits do not hold is as far outside as it must be, and no more."""
    if not re.fullmatch(rb"-?[0-9]+", word):
        raise Fault(f"number {place} is not a whole decimal number")
    # Python declines to read digits by the thousand. Twenty after the leading zeros are enough:
    # they make at least 10^19, which fits no number here, whatever follows.
    digits = word.lstrip(b"-").lstrip(b"0")[:20]
    size = int(digits or b"0")
    return -size if word.startswith(b"-") else size


def read_number(word, place, bits):
    """The same, signed and of so many bits."""
    number = read_whole(word, place)
    if not -(2 ** (bits - 1)) <= number < 2 ** (bits - 1):
        raise Fault(f"number {place} does not fit {bits} bits")
    return number


def count_words(words, fewest, most):
    """Asked before the words themselves are looked at."""
    if len(words) < fewest:
        raise Fault("too few words")
    if len(words) > most:
        raise Fault("too many words")


def read_numbers(words, bits):
    """The numbers that the words write, one for each entry of BITS."""
    return [read_number(word, place, size) for place, (word, size) in enumerate(zip(words, bits), 1)]


def numbers(*bits):
    """A reader of a command's words: a number for each entry of BITS, and none for numbers()."""

    def read(words):
        count_words(words, len(bits), len(bits))
        return read_numbers(words, bits)

    return read


def row_of(name):
    """A reader of a command's words: all the numbers for the list of this name."""

    def read(words):
        count_words(words, 0, LONGEST_ROW)
        return name, read_numbers(words, [32] * len(words))

    return read


def any_s(words):
    """A reader of a command's words: an s, which need not be a good one."""
    count_words(words, 1, 1)
    s = read_whole(words[0], 1)
    if not 0 <= s <= MOST_IN_32_BITS:
        raise Fault(f"number 1 is not in 0 to {MOST_IN_32_BITS}")
    return [s]


def shown_name(words):
    """A reader of a command's words: the name of a list, or of the unit."""
    count_words(words, 1, 1)
    if words[0] not in (*LISTS, b"unit"):
        raise Fault("no such list")
    return words


class Workbench:
    """Where a fitter stands: the lines read so far, the table's s and its three lists, and the answer to the next line."""

    def __init__(self):
        self.line_number = 0
        self.s = FIRST_S
        self.lists = {name: [] for name in LISTS}

    def answer(self, line):
        """The answer to the next line, or None if it gives nothing."""
        self.line_number += 1
        try:
            return self.obey(line)
        except Fault as fault:
            return f"? line {self.line_number}: {fault}"

    def obey(self, line):
        if len(line) > LONGEST_LINE:
            raise Fault(f"the line is longer than {LONGEST_LINE} bytes")
        if is_silent(line):
            return None
        words = words_of(line)
        if words[0] not in COMMANDS:
            raise Fault("no such command")
        command = COMMANDS[words[0]]
        return command.run(self, *command.read(words[1:]))

    def piece(self, width, rise, left_slope, right_slope):
        return piece_refusal(self.s, width, rise) or verdict(self.s, width, rise, left_slope, right_slope)

    def set_unit(self, s):
        self.s = s
        return "ok"

    def put(self, name, row):
        self.lists[name] = row
        return f"ok {len(row)}"

    def show(self, name):
        if name == b"unit":
            return str(self.s)
        return " ".join(str(number) for number in self.lists[name])

    def table(self):
        """Its s and its three lists: what every call over a table begins with."""
        return [self.s, *(self.lists[name] for name in LISTS)]

    def build(self):
        refused = build_refusal(*self.table())
        if refused is not None:
            return refused
        s, knots, values, _ = self.table()
        self.lists[b"slopes"] = built_slopes(s, knots, values)
        return "ok"

    def check(self):
        return check_refusal(*self.table()) or "ok"

    def at(self, position):
        return evaluation_refusal(*self.table(), position) or str(value_at(*self.table(), position))

    def drive(self, position):
        return drive_refusal(*self.table(), position) or " ".join(map(str, drive_at(*self.table(), position)))

    def change(self, point, knot, value):
        refused = change_refusal(*self.table(), point, knot, value)
        if refused is not None:
            return refused
        self.lists = dict(zip(LISTS, changed_table(*self.table(), point, knot, value)))
        return "ok"


# Each command: what it runs, and the reader of the words after its name, which gives the arguments.
Command = namedtuple("Command", "run read")
COMMANDS = {
    b"piece": Command(Workbench.piece, numbers(64, 64, 32, 32)),
    b"knots": Command(Workbench.put, row_of(b"knots")),
    b"values": Command(Workbench.put, row_of(b"values")),
    b"slopes": Command(Workbench.put, row_of(b"slopes")),
    b"unit": Command(Workbench.set_unit, any_s),
    b"show": Command(Workbench.show, shown_name),
    b"build": Command(Workbench.build, numbers()),
    b"check": Command(Workbench.check, numbers()),
    b"at": Command(Workbench.at, numbers(32)),
    b"drive": Command(Workbench.drive, numbers(32)),
    b"change": Command(Workbench.change, numbers(64, 32, 32)),
}


def answers_to(data):
    """All that a workbench writes for an input."""
    workbench = Workbench()
    answers = [workbench.answer(line) for line in lines_of(data)]
    return "".join(f"{answer}\n" for answer in answers if answer is not None).encode("ascii")


if __name__ == "__main__":
    sys.stdout.buffer.write(answers_to(sys.stdin.buffer.read()))
