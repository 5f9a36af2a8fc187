"""The explanations of survivors.txt.

A paragraph has a line with a file and a function of it (`-` for a constant), then one or more changes, each as the line
before (`- `) and after it (`+ `), and then why no case tells them: `Equal: ` where no caller can, `Unseen: ` where no run
is sure to show what is wrong, and the prover refuses it. Where a function has the same line more than once, a number
before the `-` says which of them is meant. Lines that begin with `#` are comments.
"""
import re
from pathlib import Path

from mutants import Key

PLACE = Path(__file__).resolve().parent / "survivors.txt"
BEFORE = re.compile(r"([0-9]*)- (.*)")


def read():
    """The explanation for each change that has one."""
    lines = [line for line in PLACE.read_text().split("\n") if not line.startswith("#")]
    found = {}
    for paragraph in filter(None, re.split(r"\n\n+", "\n".join(lines).strip("\n"))):
        keys, why = read_paragraph(paragraph)
        for key in keys:
            if key in found:
                raise SystemExit(f"mutation: explained twice: {key}")
            found[key] = why
    return found


def read_paragraph(paragraph):
    first, *lines = paragraph.split("\n")
    path, _, function = first.partition(", ")
    keys, why = [], []
    for line, following in zip(lines, [*lines[1:], ""]):
        before = BEFORE.fullmatch(line)
        if before:
            keys.append(Key(path, function, before[2], following.removeprefix("+ "), int(before[1] or 1)))
        elif not line.startswith("+ "):
            why.append(line)
    if not keys or not " ".join(why).startswith(("Equal: ", "Unseen: ")):
        raise SystemExit(f"mutation: no explanation in survivors.txt:\n{paragraph}")
    return keys, " ".join(why)


def written(mutants):
    """Changes in the form of survivors.txt, to be explained there."""
    for mutant in mutants:
        key = mutant.key
        yield f"\n{key.path}, {key.function}\n{key.turn if key.turn > 1 else ''}- {key.before}\n+ {key.after}\n?"
