"""The generator: writes the command lines on which the program and the reference are compared.

It writes the same bytes on every machine. Each group has dice of its own, so that a change to one
group leaves the others as they were. It begins with examples/first.txt, so that the program is held
to the answers which the README shows.
"""
import sys
from pathlib import Path

import changes
import drives
import evaluations
import language
import pieces
import rows
import tables
import units
import ways

FIRST_EXAMPLE = Path(__file__).resolve().parent.parent / "examples" / "first.txt"
GROUPS = (
    *pieces.GROUPS,
    *tables.GROUPS,
    *evaluations.GROUPS,
    *drives.GROUPS,
    *changes.GROUPS,
    *rows.GROUPS,
    *language.GROUPS,
    ("The table of before.", rows.last_table_again),
    # behind all that was there, so that no stored line of it gets another number
    ("The drive at each knot and beside it, of tables of 2 to 1024 points.", drives.each_knot),
    ("A width that is too large, at and away from the changed point.", changes.too_wide_elsewhere),
    ("Values just at, above and below a half.", evaluations.halves),
    ("Values so near a half that floats take them for it.", evaluations.halves_past_floats),
    ("End slopes where a slip would be seen.", tables.end_figures),
    ("End slopes where the quotient is 0 or its bound, and beside these.", tables.end_borders),
    ("End slopes at their bound, which is rounded once.", tables.bounded_ends),
    ("End slopes just at, above and below a whole number.", tables.end_rounding),
    ("End slopes that floats would get wrong.", tables.ends_past_floats),
    ("End slopes at the limits.", tables.end_limits),
    ("An end's slope after a change two points away.", changes.end_figures),
    ("Three points: every two of some small pieces.", changes.small_ends),
    ("Each point of 2 to 7 changed, and changed to what it is.", changes.near_the_ends),
    ("The third point from either end raised and lowered.", changes.third_points),
    ("Points near the ends, changed again and again.", changes.chains_near_the_ends),
    *units.GROUPS,
    *ways.GROUPS,
)


def all_cases():
    """The whole input. Its last line has a CR and no LF."""
    cases = [FIRST_EXAMPLE.read_bytes()]
    for title, group in GROUPS:
        cases.append(b"\n# %s\n" % title.encode("ascii"))
        cases.extend(line + b"\n" for line in group())
    cases.append(b"\n# A last line without LF.\npiece 1 1 768 768\r")
    return b"".join(cases)


if __name__ == "__main__":
    sys.stdout.buffer.write(all_cases())
