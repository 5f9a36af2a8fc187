"""The groups of the stored cases: which there must be, and how much of each at least.

comparison/check counts answers, and of most groups each answer is given elsewhere too: one that were left out, or cut down, and stored
so, would not be missed. So groups.txt names them all. It is written by hand, and the cases are read as they are stored, so that no edit of
the generator changes what is asked for. The figures are a little below the present ones and above the half of them.
"""
import re
from collections import Counter

from reference import is_silent, lines_of
from stored import CASES, EXAMPLE, HERE, read

LIST = "groups.txt"


class Fault(Exception):
    """What is wrong with the list or with the groups, in a sentence."""


def listed(text):
    """Of each title in the list the least numbers of lines that are answered and of bytes."""
    least = {}
    for line in text.splitlines():
        if line.startswith("#") or not line:
            continue
        entry = re.fullmatch(r" *([1-9][0-9]*) +([1-9][0-9]*)  (\S.*)", line)
        if not entry:
            raise Fault(f"comparison/{LIST} has a line that is not LINES BYTES  TITLE: {line}")
        if entry[3] in least:
            raise Fault(f"comparison/{LIST} names '{entry[3]}' twice")
        least[entry[3]] = int(entry[1]), int(entry[2])
    return least


def grouped(cases, example):
    """Each line with the title of its group. A heading is a comment behind an empty line, but in the example, which is one group."""
    title, before, seen, first = EXAMPLE, b"", {EXAMPLE}, len(lines_of(example))
    for number, line in enumerate(lines_of(cases)):
        if number >= first and not before and line.startswith(b"# "):
            title = line[2:].decode("ascii")
            if title in seen:
                raise Fault(f"the stored cases have two groups '{title}'")
            seen.add(title)
        before = line
        yield title, line


def counted(cases, example):
    """Of each group how many of its lines are answered, and how many bytes it has: some are a few long lines, or many empty ones."""
    lines, size = Counter(), Counter()
    for title, line in grouped(cases, example):
        lines[title] += not is_silent(line)
        size[title] += len(line) + 1
    return {title: (lines[title], size[title]) for title in lines}


def hold(least, there):
    for title, wanted in least.items():
        if title not in there:
            raise Fault(f"the stored cases have no group '{title}'")
        for what, count, fewest in zip(("answered lines", "bytes"), there[title], wanted):
            if count < fewest:
                raise Fault(f"the group '{title}' of the stored cases has {count} {what}, and it must be {fewest} or more")
    for title in there:
        if title not in least:
            raise Fault(f"the stored cases have a group '{title}', and comparison/{LIST} does not name it")


def first_fault():
    """What is wrong, in a sentence, or None."""
    try:
        hold(listed((HERE / LIST).read_text()), counted(read(CASES), read(EXAMPLE)))
    except Fault as fault:
        return str(fault)
    return None
