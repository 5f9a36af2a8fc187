"""Request 10 held of the stored answers: on no piece of an accepted table does the arm back up.

    python3 comparison/order.py

Nothing of the curve is worked out for it: of each table that is evaluated it takes the points, as the lines set them, and the values, as they
are answered, whatever the slopes are and wherever they come from. A piece has both its end knots. Of each piece that is judged it tries the exact
cubic, from the Hermite basis, at fractions of the width with unlike denominators: all are in order where the verdict is a yes, and of a piece that
bends it finds two that are not. Run by itself it counts what was held.
"""
import re
import sys
from collections import Counter
from itertools import pairwise

from reference import FIRST_S, is_silent, lines_of, words_of
from stored import ANSWERS, CASES, read

sys.set_int_max_str_digits(0)  # some numbers are written with thousands of zeros before them

# How much of each is there at least.
FEWEST = (
    ("steps on a rise", 2100),
    ("steps on a fall", 2200),
    ("steps on a level", 380),
    ("steps onto a knot from before it", 1150),
    ("tables that go one way, of two pieces or more", 330),
    ("tables that turn", 250),
    ("values between the two of their piece", 7400),
    ("cubics in order", 3900),
    ("cubics out of order", 3900),
)

# Ways that back up, as knots, values and answers at positions, with what is to be said of each.
WRONG = (
    ((0, 3), (0, 10), {1: 8, 2: 5}, "is not in order with a rise"),
    ((0, 3), (0, -10), {1: -8, 2: -5}, "is not in order with a fall"),
    ((0, 3), (0, 10), {1: 37, 2: 25}, "is not between"),
    ((0, 3), (5, 5), {1: 6}, "is not between"),
    ((0, 3), (0, 10), {3: 11}, "is not between"),
    ((0, 3), (0, -10), {0: 1}, "is not between"),
    ((0, 3, 6), (0, 10, 20), {2: 7, 3: 5}, "is not in order with a rise"),  # the step onto a knot
    ((0, 3, 6), (0, 10, 20), {3: 13, 4: 12}, "is not between"),
    ((0, 3, 6), (0, -10, 0), {2: -7, 3: -6}, "is not in order with a fall"),
)

# Pieces, as s, width, rise and slopes, with verdicts that they do not get.
WRONG_VERDICTS = (
    ((8, 1, 1, 769, 0), "rising"), ((8, 1, -1, -769, 0), "falling"), ((8, 1, 0, 1, -1), "flat"), ((8, 1, 1, 768, 0), "bends"), ((0, 1, 1, 4, 0), "rising"),
)


class Fault(Exception):
    """What is wrong, in a sentence."""


# ---- what is stored


def answered(cases, answers):
    """Each line that is answered, as its words, with the answer."""
    return zip((words_of(line) for line in lines_of(cases) if not is_silent(line)), answers.decode("ascii").splitlines())


def ways(pairs):
    """Of each table, as long as no line changes it, its knots, its values, and the answers at its positions."""
    knots, values, at = [], [], {}
    for words, answer in pairs:
        name = words[0] if words else b""
        if name == b"at" and re.fullmatch("-?[0-9]+", answer):
            at[int(words[1])] = int(answer)
        elif name != b"check" and answer.startswith("ok"):
            if at:
                yield knots, values, at
            at = {}
            if name == b"knots":
                knots = [*map(int, words[1:])]
            elif name == b"values":
                values = [*map(int, words[1:])]
            elif name == b"change":
                point, knot, value = map(int, words[1:])
                knots, values = ([*numbers[:point], new, *numbers[point + 1 :]] for numbers, new in ((knots, knot), (values, value)))
    if at:
        yield knots, values, at


def judged(pairs):
    """Each piece that got a verdict: its s, width, rise, slopes and the verdict."""
    s, pieces = FIRST_S, {}
    for words, answer in pairs:
        if words[:1] == [b"unit"] and answer == "ok":
            s = int(words[1])
        elif words[:1] == [b"piece"] and answer in ("rising", "falling", "flat", "bends"):
            pieces[(s, *map(int, words[1:]))] = answer
    return pieces.items()


# ---- the arm


def hold_piece(where, left, right, steps):
    """One piece: its left and its right value, and the positions on it, in order, with their answers."""
    counts = Counter()
    for position, value in steps:
        if not min(left, right) <= value <= max(left, right):
            raise Fault(f"{where}: {value} at {position} is not between {left} and {right}")
        counts["values between the two of their piece"] += 1
    for (x, v), (y, w) in pairwise(steps):
        if left < right and v > w:
            raise Fault(f"{where}: {v} at {x} is not in order with a rise to {w} at {y}")
        if left > right and v < w:
            raise Fault(f"{where}: {v} at {x} is not in order with a fall to {w} at {y}")
        counts["steps on a rise" if left < right else "steps on a fall" if left > right else "steps on a level"] += 1
    return counts


def hold_way(knots, values, at):
    """A whole table. That one which goes one way is in order as a whole is held of its answers, with no regard to pieces."""
    counts, where = Counter(), f"the table of knots {knots[:9]} and values {values[:9]}"
    for (start, left), (end, right) in pairwise(zip(knots, values)):
        steps = [(position, at[position]) for position in sorted(at) if start <= position <= end]
        counts += hold_piece(where, left, right, steps)
        counts["steps onto a knot from before it"] += len(steps) > 1 and steps[-1][0] == end
    rises = {(right > left) - (right < left) for left, right in pairwise(values)}
    if {1, -1} <= rises:
        counts["tables that turn"] += 1
    elif len(knots) > 2:
        counts["tables that go one way, of two pieces or more"] += 1
    way = [at[position] for position in sorted(at)]
    if -1 not in rises and way != sorted(way) or 1 not in rises and way != sorted(way, reverse=True):
        raise Fault(f"{where}: it goes one way, and its answers do not")
    return counts


# ---- the exact cubic

SOME = ((0, 1), (1, 7), (1, 5), (2, 7), (1, 3), (2, 5), (3, 7), (1, 2), (4, 7), (3, 5), (2, 3), (5, 7), (4, 5), (6, 7), (1, 1))  # in order


def risen(s, width, rise, left, right, k, q):
    """What the cubic has risen by up to the fraction k/q of the width, exactly, as a numerator and a denominator."""
    rest = q - k
    return 2**s * rise * (3 * q - 2 * k) * k * k + (left * rest - right * k) * k * rest * width, 2**s * q**3


def near(piece):
    """Pairs of fractions, in order, ever nearer to where the cubic's slope is least or greatest, and to the ends."""
    s, width, rise, left, right = piece
    k, q = (2 * left + right) * width - 3 * 2**s * rise, 3 * ((left + right) * width - 2 * 2**s * rise)
    k, q = (-k, -q) if q < 0 else (k, q)
    for size in range(2, 90, 8):
        part = 2**size
        yield (0, 1), (1, part)
        yield (part - 1, part), (1, 1)
        if 0 < k < q and k * part > q and (q - k) * part > q:
            yield (k * part - q, q * part), (k * part + q, q * part)


def along(piece, first, second):
    """Whether the cubic goes along the rise from one fraction to the other, or stays."""
    (over, under), (over_then, under_then) = (risen(*piece, *fraction) for fraction in (first, second))
    way = over_then * under - over * under_then
    return way >= 0 if piece[2] > 0 else way <= 0 if piece[2] < 0 else way == 0


def hold_cubic(piece, verdict):
    """A yes: in order at some fractions and between the two values. A piece that bends: two fractions are out of order."""
    if any(not along(piece, *pair) for pair in (*pairwise(SOME), *near(piece))) != (verdict == "bends"):
        raise Fault(f"the cubic of the piece {piece}, which is called {verdict}, is {'in order' if verdict == 'bends' else 'out of order'}")
    return "cubics out of order" if verdict == "bends" else "cubics in order"


# ---- all of it


def held(cases, answers):
    """How much was held; raises Fault."""
    pairs, counts = [*answered(cases, answers)], Counter()
    for way in ways(pairs):
        counts += hold_way(*way)
    for piece, verdict in judged(pairs):
        counts[hold_cubic(piece, verdict)] += 1
    return counts


def refusal_of(hold, *given):
    try:
        hold(*given)
    except Fault as fault:
        return str(fault)
    return "nothing"


def first_fault():
    """A sentence on the first thing that is wrong, or None: with what is stored, or with this check."""
    for *way, expected in WRONG:
        said = refusal_of(hold_way, *way)
        if expected not in said:
            return f"a way that backs up, {way}, was to be refused by '{expected}', and what was said is: {said}"
    for piece, verdict in WRONG_VERDICTS:
        if refusal_of(hold_cubic, piece, verdict) == "nothing":
            return f"the piece {piece} was not to be taken for one that is called {verdict}"
    try:
        counts = held(read(CASES), read(ANSWERS))
    except Fault as fault:
        return str(fault)
    for what, fewest in FEWEST:
        if counts[what] < fewest:
            return f"the stored cases have {counts[what]} {what}, and it must be {fewest} or more"
    return None


if __name__ == "__main__":
    for what, count in held(read(CASES), read(ANSWERS)).items():
        print(f"{count:6}  {what}")
