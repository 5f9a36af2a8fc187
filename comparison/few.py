"""A few cases for the mutation run: they tell most of the changed programs in less than a second."""
import re
from collections import Counter
from itertools import islice

import cases
import reference
from changes import end_figures as changed_ends
from tables import NAMES, end_figures, row

FIRST = 150  # lines of each group, of which the few cases are taken
SHORT = 150  # bytes that such a case has, with its lists
FEW = 2  # cases of one form
WRITTEN = {b"build": NAMES[2:], b"change": NAMES, b"unit": (b"unit",)}  # what a command may write: it is shown after such a case


def few_cases():
    """Of each command and each form of its answer the first lines, each with the unit and the lists that it needs before it."""
    few = [cases.FIRST_EXAMPLE.read_bytes(), *unlike_pieces(), *unlike_ends(), *left_behind(), *unlike_units()]
    seen, lent = Counter(), {}
    for line, lists, answer in answered_lines():
        command = reference.words_of(line)[0]
        form = command in reference.COMMANDS and command, re.sub("[0-9]+", "", answer)
        if len(line) + sum(map(len, lists.values())) <= SHORT and seen[form] < FEW:
            seen[form] += 1
            few.extend(lists[name] for name in lists if lists[name] != lent.get(name))
            written = WRITTEN.get(command, ())
            few.append(line + b"\n" + b"".join(b"show %b\n" % name for name in written))
            lent = {name: lists[name] for name in lists if name not in written}
    return b"".join(few)


def unlike_pieces():
    """A table whose pieces rise, rest and fall with unlike slopes, asked everywhere, and then changed and built."""
    yield b"knots -3 4 9 12 17\nvalues 5 40 90 90 -3\nslopes 700 2000 0 0 -6000\ncheck\n"
    yield from (b"%b %d\n" % (command, position) for position in range(-4, 19) for command in (b"at", b"drive"))
    for line in (b"change 1 5 41\n", b"change 3 12 88\n", b"build\n"):
        yield line + b"show slopes\n"


def unlike_ends():
    """Ends by each case of their rule, where a slip in it is seen, changes that an end follows, two that none follows, and two of two points.

    Of two points there is no third from the end: what a wrong one writes past the slopes, the interpreter alone finds.
    """
    yield from (line + b"\n" for group in (end_figures, changed_ends) for line in group())
    yield b"knots 0 2 4 6 8 10 12 14\nvalues 0 9 13 30 31 50 58 60\nslopes 1 2 3 4 5 6 7 8\n"
    yield from (line + b"show slopes\n" for line in (b"change 3 6 29\n", b"change 4 8 33\n"))
    yield b"knots 0 3\nvalues 0 9\nslopes 1 2\n"
    yield from (line + b"show slopes\n" for line in (b"change 0 1 9\n", b"change 1 3 -10\n"))


def left_behind():
    """Two points where three stood, the third at the end of 32 bits: a build that reads on past the lists comes to numbers that do not fit."""
    yield b"knots 0 1 2147483647\nvalues 0 1 2147483647\nslopes 0 0 0\n"
    yield b"knots 0 1\nvalues 0 1\nslopes 0 0\nbuild\nshow slopes\n"


def unlike_units():
    """A table in several units: built, changed, asked, and in a unit that is refused. A piece at the border of each, and the drive's limit."""
    yield b"knots 0 3 5 6\nvalues 0 10 11 -9\nslopes 1 2 3 4\n"
    for s in (0, 3, 9):
        yield b"unit %d\nbuild\nshow slopes\ncheck\nat 1\nat 2\ndrive 1\ndrive 7\nchange 1 3 7\nshow slopes\nchange 1 3 10\n" % s
        steepest = 3 * 2 ** min(s, 8)
        yield b"piece 1 1 %d %d\npiece 1 1 %d %d\n" % (steepest, steepest, steepest + 1, steepest)
    yield b"unit 0\nknots 0 1024\nvalues 0 1025\nslopes 0 0\ndrive 5\nvalues 0 1024\ndrive 5\nunit 8\n"


def answered_lines():
    """Lines of each group, with the unit and the lists before it and the answer, but for those that set or show a list."""
    workbench = reference.Workbench()
    for _, group in cases.GROUPS:
        for line in islice(group(), FIRST):
            lists = {name: row(name, numbers) + b"\n" for name, numbers in workbench.lists.items()}
            lists[b"unit"] = b"unit %d\n" % workbench.s
            answer = workbench.answer(line.removesuffix(b"\r"))
            if answer is not None and len(line) <= SHORT and reference.words_of(line)[0] not in (b"show", *NAMES):
                yield line, lists, answer
