"""The reference held against what was worked out without it: the figures of documents 01 and 02, the
definition tried at every fraction on small pieces, slopes and values found in other ways, the drive's
answer worked out in floats, changes written entry by entry, the slopes that a change can alter found by
trying, slopes in one unit held to those in another, and lines whose answers were written by hand.
"""
from fractions import Fraction
from itertools import cycle, product

from dice import Dice, I32_MAX, I32_MIN
from reference import (
    LISTS, Workbench, answers_to, built_slopes, changed_table, check_refusal, drive_at, drive_refusal, end_slope,
    inner_slope, lines_of, piece_at, refusal, secant_slope, value_at, verdict,
)
from tables import at_the_borders

# Of each s the unit, and the s of document 01.
UNITS = (1, 2, 4, 8, 16, 32, 64, 128, 256)
ALL = range(len(UNITS))
S = 8

# Copied from document 01, "Figures to hold against it".
FIGURES = (
    (1, 1, 256, 256, "rising"),
    (1, 1, 768, 768, "rising"),
    (1, 1, 768, 769, "bends"),
    (1, 1, 1024, 256, "rising"),
    (1, 1, 1025, 256, "bends"),
    (1, 1, 1024, 255, "bends"),
    (1, 1, 768, 0, "rising"),
    (1, 1, 769, 0, "bends"),
    (1, 0, 0, 0, "flat"),
    (1, 0, 1, -1, "bends"),
    (1, -1, -768, -768, "falling"),
    (2, 1, 384, 384, "rising"),
)

# Copied from documents 01 and 02: knots, values, and the slopes built. The last table is the fourth with point 0 changed.
BUILT_FIGURES = (
    ((0, 1, 2), (0, 1, 4), [0, 384, 1024]),
    ((0, 1, 3), (0, 1, 2), [298, 177, 42]),
    ((0, 3), (0, -10), [-853, -853]),
    ((0, 1, 2, 3), (0, 1, 4, 7), [0, 384, 768, 768]),
    ((0, 1, 2, 3), (-2, 1, 4, 7), [768, 768, 768, 768]),
)

# The same at the borders of request 2's rule, worked out without the reference.
BORDER_FIGURES = (
    ((0, 1, 2), (0, 1, -1), [640, 0, -896]),  # opposite signs, and not beyond the bound
    ((0, 1, 2), (0, 1, -2), [768, 0, -1280]),  # the quotient is the bound
    ((0, 1, 2), (0, 1, -3), [768, 0, -1664]),  # it is beyond the bound, and 896 would bend
    ((0, 1, 2), (0, 0, 1), [0, 0, 384]),  # no rise in the end piece on the left, nor in the neighbour on the right
    ((0, 1, 2), (0, 1, 5), [0, 409, 1408]),  # it opposes the rise on the left
    ((0, 1, 3), (0, -1, -2), [-298, -177, -42]),  # toward zero on falls
    ((0, 3, 4), (0, 1, -9), [256, 0, -3221]),  # the bound is 768/3, and three times 256/3 rounded would be 255
    ((0, 2, 3), (0, 1, -9), [384, 0, -3456]),  # the bound is 768/2
    ((0, 1024, 2048), (0, 1, 2), [0, 0, 0]),  # a quarter of a unit
    ((0, 1, 2), (0, 1048576, 0), [536870912, 0, -536870912]),  # the steepest end of all, 2^29
    ((0, 1, 2), (0, 349525, -699051), [268435200, 0, -447392384]),  # the greatest rise there that is held to its bound
    ((0, 1, 2, 3), (0, 1, 4, 3), [0, 384, 0, -768]),  # both ends of four points
    ((0, 1, 2, 3), (0, 1, 1, 1), [384, 0, 0, 0]),  # the end piece on the right has no rise, nor has its neighbour
    ((0, 1), (0, 1), [256, 256]),  # two points have the secant
)

# Request 8's: an s, a piece, and what it is where a slope is a whole value, or finer.
UNIT_PIECES = (
    (0, 1, 1, 3, 3, "rising"),
    (0, 1, 1, 4, 1, "rising"),
    (0, 1, 1, 4, 0, "bends"),
    (0, 1, 1, 3, 4, "bends"),
    (0, 1, -1, -3, -3, "falling"),
    (0, 1, 0, 0, 0, "flat"),
    (0, 1, 0, 1, -1, "bends"),
    (1, 1, 1, 6, 6, "rising"),
    (1, 1, 1, 6, 7, "bends"),
    (4, 1, 1, 64, 16, "rising"),
    (4, 1, 1, 64, 15, "bends"),
    (7, 2, 1, 192, 192, "rising"),
    (7, 2, 1, 193, 192, "bends"),
)

# An s, knots, values, and the slopes built, each worked out without the reference.
UNIT_FIGURES = (
    (0, (0, 1, 2), (0, 1, 4), [0, 1, 4]),
    (1, (0, 1, 2), (0, 1, 4), [0, 3, 8]),
    (4, (0, 1, 2), (0, 1, 4), [0, 24, 64]),
    (7, (0, 1, 2), (0, 1, 4), [0, 192, 512]),
    (0, (0, 3), (0, -10), [-3, -3]),
    (3, (0, 3), (0, -10), [-26, -26]),  # -27 from -853 rounded down
    (7, (0, 3), (0, -10), [-426, -426]),
    (4, (0, 1, 3), (0, 1, 2), [18, 11, 2]),
    (0, (0, 1, 3), (0, 1, 2), [1, 0, 0]),
    (0, (0, 1, 2), (0, 1, -3), [3, 0, -6]),  # 768 for the bound of document 01's unit
    (0, (0, 1, 2), (0, 1048576, 0), [2097152, 0, -2097152]),
)

# An end piece, its neighbour and the slope at the end, each with what a slip would give.
END_FIGURES = (
    (1, -2, 2, -2, -597),  # -598 rounded down; -85 with the two widths exchanged
    (2, -1, 1, 2, -384),  # -554 without the bound; -256 with a bound rounded before it is in units
    (3, -2, 1, 2, -512),  # -510 with three times the rounded secant for the bound
    (2, -1, 3, -2, -110),  # -111 from two secants that are rounded first
    (1, 0, 1, -1, 0),  # 128 where it is not asked whether there is a rise
    (1, -1, 1, 1, -512),  # 0 as between opposite signs inside
    (1, 1, 1, -4, 768),  # 896 where the quotient and the bound are rounded to whole values before they are compared
    (2, -2, 1, 3, -768),  # -938, likewise
)

# Changes of built tables, each with its answer and the three lists after it. The first two are document 01's.
CHANGED_FIGURES = (
    (BUILT_FIGURES[3], (0, 0, -2), "ok", [[0, 1, 2, 3], [-2, 1, 4, 7], [768, 768, 768, 768]]),
    (
        BUILT_FIGURES[3], (1, 2, 1),
        "refused 3 at 1: a width is not in 1 to 1024", [[0, 1, 2, 3], [0, 1, 4, 7], [0, 384, 768, 768]],
    ),
    # The last slope of three points follows the first point, and slope 0 of four follows the third, which is point 2.
    (BORDER_FIGURES[3], (0, 0, 1), "ok", [[0, 1, 2], [1, 0, 1], [-512, 0, 512]]),
    (BORDER_FIGURES[12], (2, 2, 2), "ok", [[0, 1, 2, 3], [0, 1, 2, 1], [256, 256, 0, -512]]),
)

# Of each number of points, for a change of each of them: the first and the last of the slopes that are renewed.
RENEWED = {
    2: ((0, 1), (0, 1)),
    3: ((0, 2), (0, 2), (0, 2)),
    4: ((0, 1), (0, 3), (0, 3), (2, 3)),
    5: ((0, 1), (0, 2), (0, 4), (2, 4), (3, 4)),
    6: ((0, 1), (0, 2), (0, 3), (2, 5), (3, 5), (4, 5)),
    7: ((0, 1), (0, 2), (0, 3), (2, 4), (3, 6), (4, 6), (5, 6)),
}

LINES = (
    (b"", b""),
    (b"\n\n \t\n# only this\n", b""),
    (b"\r", b""),
    (b"piece 1 1 256 256", b"rising\n"),
    (b"piece 1 1 256 256\r", b"rising\n"),
    (b"piece 1 1 256 256\r\r\n", b"? line 1: number 4 is not a whole decimal number\n"),
    (b"\n\r\nPiece\n", b"? line 3: no such command\n"),
    (b" #\n", b"? line 1: no such command\n"),
    (b"piece\n\tpiece 1 2 3 4 5\n", b"? line 1: too few words\n? line 2: too many words\n"),
    (b"piece 1 9223372036854775808 x 0", b"? line 1: number 2 does not fit 64 bits\n"),
    (b"piece 1 -9223372036854775808 -2147483648 2147483648", b"? line 1: number 4 does not fit 32 bits\n"),
    (b"piece 1 1 +0 0", b"? line 1: number 3 is not a whole decimal number\n"),
    (b"piece 1 1 0 0\npiece 1024 1 0 0\npiece 1 1048576 0 0\npiece 1 -1048576 0 0", b"rising\nrising\nrising\nfalling\n"),
    (b"piece 0 1 0 0", b"refused 3 at 0: a width is not in 1 to 1024\n"),
    (b"piece 1025 1 0 0", b"refused 3 at 0: a width is not in 1 to 1024\n"),
    (b"piece 1 -1048577 0 0", b"refused 4 at 0: a rise is outside its limits\n"),
    (b"piece -0 1048577 0 0", b"refused 3 at 0: a width is not in 1 to 1024\n"),
    (b"piece 1 1048577 0 0", b"refused 4 at 0: a rise is outside its limits\n"),
    (b"piece 1 0 0 " + b"0" * (65536 - 12), b"flat\n"),
    (b"piece 1 0 0 " + b"0" * (65536 - 12) + b"\r\n", b"flat\n"),
    (b"piece 1 0 0 " + b"0" * (65537 - 12), b"? line 1: the line is longer than 65536 bytes\n"),
    (b"#" * 65536 + b"\n" + b"#" * 65537, b"? line 2: the line is longer than 65536 bytes\n"),
    (b" " * 65536 + b"\n" + b" " * 65537, b"? line 2: the line is longer than 65536 bytes\n"),
)

# Lines that come after these three, and the answers that come after their three.
SET_TABLE = b"knots 0 1 2\nvalues 0 1 4\nslopes 7 8 9\n"
SHOW_ALL = b"show knots\nshow values\nshow slopes\n"
TABLE_LINES = (
    (b"", b""),
    (b"show knots\nshow values\n show\tslopes \r\n", b"0 1 2\n0 1 4\n7 8 9\n"),
    (b"build\nshow slopes\nshow knots\nshow values", b"ok\n0 384 1024\n0 1 2\n0 1 4\n"),
    (b"slopes -2147483648 2147483647 0\nbuild\nbuild\nshow slopes", b"ok 3\nok\nok\n0 384 1024\n"),
    (b"knots 0 3\nvalues 0 -10\nslopes 0 0\nbuild\nshow slopes", b"ok 2\nok 2\nok 2\nok\n-853 -853\n"),
    (b"piece 1 1 256 256\npiece 0 1 0 0\nshow slopes", b"rising\nrefused 3 at 0: a width is not in 1 to 1024\n7 8 9\n"),
    # The lists' faults, each alone.
    (b"slopes 5 6\nbuild\nshow slopes", b"ok 2\nrefused 1 at 0: the lists' lengths differ\n5 6\n"),
    (b"slopes 5 6 7 8\nbuild\nshow slopes", b"ok 4\nrefused 1 at 0: the lists' lengths differ\n5 6 7 8\n"),
    (b"slopes\nbuild\nshow slopes", b"ok 0\nrefused 1 at 0: the lists' lengths differ\n\n"),
    (b"values 0 1 4 9\nbuild\nshow slopes", b"ok 4\nrefused 1 at 0: the lists' lengths differ\n7 8 9\n"),
    (b"knots\nbuild\nshow knots", b"ok 0\nrefused 1 at 0: the lists' lengths differ\n\n"),
    (
        b"knots 3\nvalues 4\nslopes 5\nbuild\nshow slopes",
        b"ok 1\nok 1\nok 1\nrefused 2 at 0: fewer than 2 or more than 1024 points\n5\n",
    ),
    (b"knots 0 2 2\nbuild\nshow slopes", b"ok 3\nrefused 3 at 1: a width is not in 1 to 1024\n7 8 9\n"),
    (b"knots 0 1 0\nbuild\nshow slopes", b"ok 3\nrefused 3 at 1: a width is not in 1 to 1024\n7 8 9\n"),
    (b"knots 0 1025 1026\nbuild\nshow slopes", b"ok 3\nrefused 3 at 0: a width is not in 1 to 1024\n7 8 9\n"),
    (b"knots 0 1024 2048\nbuild\nshow slopes", b"ok 3\nok\n0 0 1\n"),
    (
        b"knots 2147483646 2147483647 -2147483648\nbuild\nshow slopes\nshow knots",
        b"ok 3\nrefused 3 at 1: a width is not in 1 to 1024\n7 8 9\n2147483646 2147483647 -2147483648\n",
    ),
    (b"values 0 1048577 0\nbuild\nshow slopes", b"ok 3\nrefused 4 at 0: a rise is outside its limits\n7 8 9\n"),
    (b"values 0 1 -1048576\nbuild\nshow slopes", b"ok 3\nrefused 4 at 1: a rise is outside its limits\n7 8 9\n"),
    (b"values 0 1048576 0\nbuild\nshow slopes", b"ok 3\nok\n536870912 0 -536870912\n"),
    (
        b"values -2147483647 -2147483648 2147483647\nbuild\nshow values",
        b"ok 3\nrefused 4 at 1: a rise is outside its limits\n-2147483647 -2147483648 2147483647\n",
    ),
    (
        b"knots 0 2 2 3\nvalues 0 1 4 7\nslopes 6 7 8 9\nbuild\nshow slopes",  # document 01's, with point 1 changed
        b"ok 4\nok 4\nok 4\nrefused 3 at 1: a width is not in 1 to 1024\n6 7 8 9\n",
    ),
    # Two of them: lengths, then the count, then all the widths, then the rises.
    (b"knots 0\nbuild", b"ok 1\nrefused 1 at 0: the lists' lengths differ\n"),
    (b"knots 0 0\nbuild", b"ok 2\nrefused 1 at 0: the lists' lengths differ\n"),
    (b"knots" + b" 1" * 1025 + b"\nbuild", b"ok 1025\nrefused 1 at 0: the lists' lengths differ\n"),
    (b"values 0 1048577 0\nknots 0 1 1\nbuild", b"ok 3\nok 3\nrefused 3 at 1: a width is not in 1 to 1024\n"),
    (
        b"knots 0 1 2 3 4 5 6 7 8 9 9\nvalues 0 2000000 0 0 0 0 0 0 0 0 0\nslopes 1 2 3 4 5 6 7 8 9 10 11\nbuild",
        b"ok 11\nok 11\nok 11\nrefused 3 at 9: a width is not in 1 to 1024\n",
    ),
    (b"knots 0 0 0\nbuild\nknots 0 1 2\nbuild", b"ok 3\nrefused 3 at 0: a width is not in 1 to 1024\nok 3\nok\n"),
    # Tables that are accepted, and their values. The first is document 01's, as request 6 amends it.
    (
        b"knots 0 3\nvalues 0 -10\nslopes 0 0\nbuild\ncheck\nat 0\nat 1\nat 2\nat 3",
        b"ok 2\nok 2\nok 2\nok\nok\n0\n-3\n-7\n-10\n",
    ),
    (b"check\nat 0\nat 1\nat 2\n" + SHOW_ALL, b"ok\n0\n1\n4\n0 1 2\n0 1 4\n7 8 9\n"),
    (
        b"knots 0 2 6\nvalues 10 0 -7\nslopes 0 0 0\ncheck\nat 0\nat 1\nat 2\nat 3\nat 4\nat 5\nat 6",
        b"ok 3\nok 3\nok 3\nok\n10\n5\n0\n-1\n-3\n-6\n-7\n",
    ),
    (
        b"knots -4 0 4\nvalues -8 0 8\nslopes 512 512 512\ncheck\nat -3\nat -1\nat 0\nat 1\nat 3",
        b"ok 3\nok 3\nok 3\nok\n-6\n-2\n0\n2\n6\n",
    ),
    (b"knots 0 4\nvalues 0 8\nslopes 1536 0\nat 1\nat 2\nat 3", b"ok 2\nok 2\nok 2\n5\n7\n8\n"),
    (b"knots 0 4\nvalues 0 8\nslopes 0 1536\nat 1\nat 2\nat 3", b"ok 2\nok 2\nok 2\n0\n1\n3\n"),
    (b"knots 0 4\nvalues 0 -8\nslopes -1536 0\nat 1\nat 2\nat 3", b"ok 2\nok 2\nok 2\n-5\n-7\n-8\n"),
    # Halves go up: on a rise, on a fall, to an even number and to an odd one, and from below 0.
    (b"knots 0 2\nvalues 0 1\nslopes 128 128\nat 1\nvalues 0 -1\nslopes -128 -128\nat 1", b"ok 2\nok 2\nok 2\n1\nok 2\nok 2\n0\n"),
    (b"knots 0 2\nvalues 0 3\nslopes 384 384\nat 1\nvalues 0 -3\nslopes -384 -384\nat 1", b"ok 2\nok 2\nok 2\n2\nok 2\nok 2\n-1\n"),
    (b"knots 0 2\nvalues -1 0\nslopes 128 128\nat 1\nvalues -1 -2\nslopes -128 -128\nat 1", b"ok 2\nok 2\nok 2\n0\nok 2\nok 2\n-1\n"),
    (b"values 5 5 5\nslopes 0 0 0\ncheck\nat 0\nat 1\nat 2", b"ok 3\nok 3\nok\n5\n5\n5\n"),
    (
        b"knots -2147483648 -2147483646\nvalues 2147483647 2147483645\nslopes -256 -256\n"
        b"at -2147483648\nat -2147483647\nat -2147483646\nat 2147483647",
        b"ok 2\nok 2\nok 2\n2147483647\n2147483646\n2147483645\n"
        b"refused 6 at 0: position before the first or after the last knot\n",
    ),
    # What the drive is told: moves, rising and falling, and dwells. At an inner knot the piece that starts there counts.
    (b"drive 0\ndrive 1\ndrive 2\n" + SHOW_ALL, b"move 0 0 256\nmove 1 0 256\nmove 1 768 256\n0 1 2\n0 1 4\n7 8 9\n"),
    (
        b"knots 0 3\nvalues 0 -10\nslopes 0 0\nbuild\ndrive 0\ndrive 1\ndrive 2\ndrive 3",
        b"ok 2\nok 2\nok 2\nok\nmove 0 0 6912\nmove 0 -23038 6912\nmove 0 -46082 6912\nmove 0 -69120 6912\n",
    ),
    (
        b"knots 0 4\nvalues 0 8\nslopes 1536 0\ndrive 1\ndrive 2\nvalues 8 0\nslopes -1536 0\ndrive 0\ndrive 1",
        b"ok 2\nok 2\nok 2\nmove 0 75776 16384\nmove 0 114688 16384\nok 2\nok 2\nmove 8 0 16384\nmove 8 -75776 16384\n",
    ),
    (b"values 5 5 5\nslopes 0 0 0\ndrive 0\ndrive 1\ndrive 2", b"ok 3\nok 3\n" + b"dwell 5\n" * 3),
    (b"values 0 0 -7\nslopes 0 0 0\ndrive 0\ndrive 1\ndrive 2", b"ok 3\nok 3\ndwell 0\nmove 0 0 256\nmove 0 -1792 256\n"),
    (b"values 0 -7 -7\nslopes 0 0 0\ndrive 0\ndrive 1\ndrive 2", b"ok 3\nok 3\nmove 0 0 256\ndwell -7\ndwell -7\n"),
    (
        b"knots -2147483648 -2147483647\nvalues 2147483647 2147483646\nslopes -256 -256\n"
        b"drive -2147483648\ndrive -2147483647\ndrive 2147483647",
        b"ok 2\nok 2\nok 2\nmove 2147483647 0 256\nmove 2147483647 -256 256\n"
        b"refused 6 at 0: position before the first or after the last knot\n",
    ),
    # A piece that is too large refuses its own positions, and no others. The first two are document 01's.
    (
        b"knots 0 1024\nvalues 0 1024\nslopes 0 0\ndrive 512\nvalues 0 -1024\ndrive 1024",
        b"ok 2\nok 2\nok 2\nmove 0 140737488355328 274877906944\nok 2\nmove 0 -281474976710656 274877906944\n",
    ),
    (
        b"knots 0 1024\nvalues 0 1025\nslopes 0 0\ndrive 0\ndrive 512\nvalues 0 -1025\ndrive 1024",
        b"ok 2\nok 2\nok 2\n" + b"refused 8 at 0: piece too large for the exact float answer\n" * 2
        + b"ok 2\nrefused 8 at 0: piece too large for the exact float answer\n",
    ),
    (
        b"knots -1 0 1024\nvalues -1 0 1025\nslopes 0 0 0\ndrive -1\ndrive 0\ndrive 1024\ndrive 1025\n" + SHOW_ALL,
        b"ok 3\nok 3\nok 3\nmove -1 0 256\n" + b"refused 8 at 1: piece too large for the exact float answer\n" * 2
        + b"refused 6 at 0: position before the first or after the last knot\n-1 0 1024\n-1 0 1025\n0 0 0\n",
    ),
    (
        b"knots 0 1024 1025\nvalues 0 1025 1025\nslopes 0 0 0\ndrive 1023\ndrive 1024\nslopes 0 0 1\ndrive 1023",
        b"ok 3\nok 3\nok 3\nrefused 8 at 0: piece too large for the exact float answer\ndwell 1025\n"
        b"ok 3\nrefused 5 at 1: a piece is not monotone\n",
    ),
    # Refusals of a table and of a position, each alone.
    (b"slopes 5 6\ncheck\nat 1\nat 9", b"ok 2\n" + b"refused 1 at 0: the lists' lengths differ\n" * 3),
    (b"slopes 5 6 7 8\ncheck\nat 1", b"ok 4\n" + b"refused 1 at 0: the lists' lengths differ\n" * 2),
    (b"values 0 1 4 9\ncheck\nat 1", b"ok 4\n" + b"refused 1 at 0: the lists' lengths differ\n" * 2),
    (b"knots 0 1 2 3\ncheck\nat 1", b"ok 4\n" + b"refused 1 at 0: the lists' lengths differ\n" * 2),
    (
        b"knots 3\nvalues 4\nslopes 5\ncheck\nat 3\nat 4",
        b"ok 1\nok 1\nok 1\n" + b"refused 2 at 0: fewer than 2 or more than 1024 points\n" * 3,
    ),
    (
        b"knots 2147483647 -2147483648\nvalues 0 0\nslopes 0 0\ncheck\nat 0",  # document 01's
        b"ok 2\nok 2\nok 2\n" + b"refused 3 at 0: a width is not in 1 to 1024\n" * 2,
    ),
    (b"values 0 1 -1048576\ncheck\nat 0", b"ok 3\n" + b"refused 4 at 1: a rise is outside its limits\n" * 2),
    (
        b"values -2147483647 -2147483648 2147483647\ncheck\nat 0",
        b"ok 3\n" + b"refused 4 at 1: a rise is outside its limits\n" * 2,
    ),
    (b"slopes -1 0 0\ncheck\nat 2", b"ok 3\n" + b"refused 5 at 0: a piece is not monotone\n" * 2),
    (b"slopes 0 0 -1\ncheck\nat 0", b"ok 3\n" + b"refused 5 at 1: a piece is not monotone\n" * 2),
    (b"slopes 0 769 0\ncheck\nat 0", b"ok 3\n" + b"refused 5 at 0: a piece is not monotone\n" * 2),
    (b"slopes 0 768 0\ncheck\nat 0", b"ok 3\nok\n0\n"),
    (b"values 0 1 1\nslopes 0 1 0\ncheck\nat 1", b"ok 3\nok 3\n" + b"refused 5 at 1: a piece is not monotone\n" * 2),
    (b"values 0 1 0\nslopes 0 0 1\ncheck\nat 1", b"ok 3\nok 3\n" + b"refused 5 at 1: a piece is not monotone\n" * 2),
    (b"at -1\nat 3", b"refused 6 at 0: position before the first or after the last knot\n" * 2),
    # None of them changes a list.
    (
        b"slopes 5 -6 7\ncheck\nat 1\n" + SHOW_ALL,
        b"ok 3\n" + b"refused 5 at 0: a piece is not monotone\n" * 2 + b"0 1 2\n0 1 4\n5 -6 7\n",
    ),
    (
        b"slopes 5\ncheck\nat 1\n" + SHOW_ALL,
        b"ok 1\n" + b"refused 1 at 0: the lists' lengths differ\n" * 2 + b"0 1 2\n0 1 4\n5\n",
    ),
    (
        b"knots 0 1 0\ncheck\nat 1\n" + SHOW_ALL,
        b"ok 3\n" + b"refused 3 at 1: a width is not in 1 to 1024\n" * 2 + b"0 1 0\n0 1 4\n7 8 9\n",
    ),
    (b"at 3\n" + SHOW_ALL, b"refused 6 at 0: position before the first or after the last knot\n0 1 2\n0 1 4\n7 8 9\n"),
    # Two of them: lengths, then the count, then all the widths, then the rises, then the pieces, then the position.
    (b"knots 0\ncheck\nat 0", b"ok 1\n" + b"refused 1 at 0: the lists' lengths differ\n" * 2),
    (b"values 0 1048577 0\nknots 0 1 1\ncheck", b"ok 3\nok 3\nrefused 3 at 1: a width is not in 1 to 1024\n"),
    (
        b"slopes -1 0 0\nvalues 0 1 1048578\ncheck\nat 9\nknots 0 1 1\ncheck\nat 9",
        b"ok 3\nok 3\n" + b"refused 4 at 1: a rise is outside its limits\n" * 2
        + b"ok 3\n" + b"refused 3 at 1: a width is not in 1 to 1024\n" * 2,
    ),
    (b"slopes 0 0 -1\nat 9\nat -1", b"ok 3\n" + b"refused 5 at 1: a piece is not monotone\n" * 2),
    (
        b"slopes -1 0 0\ndrive 9\nvalues 0 1 1048578\ndrive 9\nknots 0 1 1\ndrive 9\nknots 0\ndrive 9",
        b"ok 3\nrefused 5 at 0: a piece is not monotone\nok 3\nrefused 4 at 1: a rise is outside its limits\n"
        b"ok 3\nrefused 3 at 1: a width is not in 1 to 1024\nok 1\nrefused 1 at 0: the lists' lengths differ\n",
    ),
    # Changes of a point: the slopes beside it are renewed, near an end the end's too, also where it stays as it is, and no others.
    (b"change 1 1 1\n" + SHOW_ALL, b"ok\n0 1 2\n0 1 4\n0 384 1024\n"),
    (b"change 0 0 -2\n" + SHOW_ALL, b"ok\n0 1 2\n-2 1 4\n768 768 768\n"),
    (b"change 2 2 2\n" + SHOW_ALL, b"ok\n0 1 2\n0 1 2\n256 256 256\n"),
    (b"change 2 3 2\nchange 0 -1 0\n" + SHOW_ALL, b"ok\nok\n-1 1 3\n0 1 2\n128 128 128\n"),
    (
        b"knots 0 9\nvalues 5 5\nslopes 1 2\nchange 1 3 -5\n" + SHOW_ALL,
        b"ok 2\nok 2\nok 2\nok\n0 3\n5 -5\n-853 -853\n",
    ),
    (
        b"knots 0 1 2 3 4\nvalues 0 1 2 3 4\nslopes 5 6 7 8 9\nchange 2 2 3\n" + SHOW_ALL,
        b"ok 5\nok 5\nok 5\nok\n0 1 2 3 4\n0 1 3 3 4\n128 341 0 0 384\n",
    ),
    (
        b"knots 0 1 2 3 4 5 6\nvalues 0 1 2 3 4 5 6\nslopes 1 2 3 4 5 6 7\nchange 3 3 4\nshow slopes\n"
        b"change 2 2 3\nshow slopes\nchange 4 4 5\nshow slopes",
        b"ok 7\n" * 3 + b"ok\n1 2 341 0 0 6 7\nok\n128 341 341 0 0 6 7\nok\n128 341 341 256 0 0 384\n",
    ),
    # Each refusal of a change. Where the point was is not asked, and all the others are.
    (
        b"slopes 5 6\nchange 0 0 0\nslopes 5 6 7 8\nchange 0 0 0\nchange 9 0 0\n" + SHOW_ALL,
        b"ok 2\nrefused 1 at 0: the lists' lengths differ\nok 4\n" + b"refused 1 at 0: the lists' lengths differ\n" * 2
        + b"0 1 2\n0 1 4\n5 6 7 8\n",
    ),
    (
        b"knots 3\nvalues 4\nslopes 5\nchange 0 0 0\nchange 1 0 0\nchange -1 0 0\n" + SHOW_ALL,
        b"ok 1\nok 1\nok 1\n" + b"refused 2 at 0: fewer than 2 or more than 1024 points\n" * 3 + b"3\n4\n5\n",
    ),
    (
        b"change 3 3 9\nchange -1 3 9\nchange 4294967296 0 0\nchange -9223372036854775808 0 0\n" + SHOW_ALL,
        b"refused 7 at 0: no point with this number\n" * 4 + b"0 1 2\n0 1 4\n7 8 9\n",
    ),
    (
        b"change 1 0 1\nchange 1 2 1\nchange 2 1026 4\nchange 2 -2147483648 4\n" + SHOW_ALL,
        b"refused 3 at 0: a width is not in 1 to 1024\n" + b"refused 3 at 1: a width is not in 1 to 1024\n" * 3
        + b"0 1 2\n0 1 4\n7 8 9\n",
    ),
    (
        b"change 1 1 1048577\nchange 0 0 1048578\nchange 2 2 1048578\nchange 1 1 -1048573\n" + SHOW_ALL,
        b"refused 4 at 0: a rise is outside its limits\n" * 2 + b"refused 4 at 1: a rise is outside its limits\n" * 2
        + b"0 1 2\n0 1 4\n7 8 9\n",
    ),
    (
        b"knots 2147483646 2147483647\nvalues 0 0\nslopes 5 6\nchange 1 -2147483648 0\nshow knots",
        b"ok 2\nok 2\nok 2\nrefused 3 at 0: a width is not in 1 to 1024\n2147483646 2147483647\n",
    ),
    (
        b"knots 0 5000 2\nvalues 0 -2147483648 4\nchange 1 1 1\n" + SHOW_ALL,
        b"ok 3\nok 3\nok\n0 1 2\n0 1 4\n0 384 1024\n",
    ),
    (
        b"knots 0 5000 2\nchange 0 0 0\nchange 2 5001 4\nchange 1 1 1\nshow slopes",
        b"ok 3\n" + b"refused 3 at 0: a width is not in 1 to 1024\n" * 2 + b"ok\n0 384 1024\n",
    ),
    # Two of them: lengths, then the count, then the point, then all the widths, then the rises.
    (b"knots 0\nchange 1 0 0", b"ok 1\nrefused 1 at 0: the lists' lengths differ\n"),
    (
        b"values 0 1048577 0\nchange 3 2 0\nchange 2 1 0",
        b"ok 3\nrefused 7 at 0: no point with this number\nrefused 3 at 1: a width is not in 1 to 1024\n",
    ),
    (
        b"knots 0 1 2 3 4 5 6 7 8 9 10\nvalues 0 2000000 0 0 0 0 0 0 0 0 0\nslopes 1 2 3 4 5 6 7 8 9 10 11\n"
        b"change 10 9 0\nchange 9 9 0\nchange 1 1 0\nshow slopes",
        b"ok 11\nok 11\nok 11\nrefused 3 at 9: a width is not in 1 to 1024\n"
        b"refused 4 at 0: a rise is outside its limits\nok\n0 0 0 4 5 6 7 8 9 10 11\n",
    ),
    # Changes among other commands, each of which sees the lists as they are.
    (
        b"change 2 4 10\ncheck\nat 3\nchange 9 9 9\nbuild\nshow slopes\nchange 2 2 4\nshow slopes",
        b"ok\nok\n6\nrefused 7 at 0: no point with this number\nok\n128 354 1152\nok\n0 384 1024\n",
    ),
    # Faults of the line.
    (
        b"change\nchange 1 1\nchange 1 1 1 1\nchange x y\nchange x 1 1\nchange 1 x 1\nchange 1 1 x\n" + SHOW_ALL,
        b"? line 4: too few words\n? line 5: too few words\n? line 6: too many words\n? line 7: too few words\n"
        b"? line 8: number 1 is not a whole decimal number\n? line 9: number 2 is not a whole decimal number\n"
        b"? line 10: number 3 is not a whole decimal number\n0 1 2\n0 1 4\n7 8 9\n",
    ),
    (
        b"change 9223372036854775808 1 1\nchange 9223372036854775807 1 1\nchange 1 2147483648 1\n"
        b"change 1 1 -2147483649\nChange 1 1 1\nslopes 5\nchange 1 1 x\nchange -0\t01 \t -00 \r\n",
        b"? line 4: number 1 does not fit 64 bits\nrefused 7 at 0: no point with this number\n"
        b"? line 6: number 2 does not fit 32 bits\n? line 7: number 3 does not fit 32 bits\n? line 8: no such command\n"
        b"ok 1\n? line 10: number 3 is not a whole decimal number\nrefused 1 at 0: the lists' lengths differ\n",
    ),
    (b"build it\nshow slopes", b"? line 4: too many words\n7 8 9\n"),
    (b"check it\nat\nat 1 2", b"? line 4: too many words\n? line 5: too few words\n? line 6: too many words\n"),
    (b"at x y\nat 1r", b"? line 4: too many words\n? line 5: number 1 is not a whole decimal number\n"),
    (b"at 2147483648\nat\t-0 \r\n", b"? line 4: number 1 does not fit 32 bits\n0\n"),
    (
        b"drive\ndrive 1 2\ndrive x y\ndrive 1r\ndrive 2147483648\nDrive 1\ndrive\t-0 \r\n",
        b"? line 4: too few words\n? line 5: too many words\n? line 6: too many words\n"
        b"? line 7: number 1 is not a whole decimal number\n? line 8: number 1 does not fit 32 bits\n"
        b"? line 9: no such command\nmove 0 0 256\n",
    ),
    (b"At 1\nChecks\n check\t", b"? line 4: no such command\n? line 5: no such command\nok\n"),
    (b"slopes 5\ncheck it\nat", b"ok 1\n? line 5: too many words\n? line 6: too few words\n"),
    (b"Build\nbuilds\nshow slopes", b"? line 4: no such command\n? line 5: no such command\n7 8 9\n"),
    (b"slope 5 6 7\nslopess 5 6 7\nshow slopes", b"? line 4: no such command\n? line 5: no such command\n7 8 9\n"),
    (b"show\nshow knots values", b"? line 4: too few words\n? line 5: too many words\n"),
    (b"show it\nshow Knots", b"? line 4: no such list\n? line 5: no such list\n"),
    (b"show slope\nshow slopess", b"? line 4: no such list\n? line 5: no such list\n"),
    (b"show it all\nshow slopes", b"? line 4: too many words\n7 8 9\n"),
    (b"knots 5 x\nshow knots", b"? line 4: number 2 is not a whole decimal number\n0 1 2\n"),
    (b"values 5 6 7 2147483648 x\nshow values", b"? line 4: number 4 does not fit 32 bits\n0 1 4\n"),
    (b"slopes x -2147483649\nshow slopes", b"? line 4: number 1 is not a whole decimal number\n7 8 9\n"),
    (b"slopes\t-0  007\t-2147483648 \r\nshow slopes", b"ok 3\n0 7 -2147483648\n"),
    (b"slopes 1 2\r\r\nshow slopes", b"? line 4: number 2 is not a whole decimal number\n7 8 9\n"),
    (b"knots" + b" 4" * 2048 + b"\nshow knots", b"ok 2048\n4" + b" 4" * 2047 + b"\n"),
    (b"knots" + b" 4" * 2049 + b"\nshow knots", b"? line 4: too many words\n0 1 2\n"),
    (b"knots" + b" 4" * 2048 + b" x\nshow knots", b"? line 4: too many words\n0 1 2\n"),
    (b"knots" + b" 4" * 2047 + b" x\nshow knots", b"? line 4: number 2048 is not a whole decimal number\n0 1 2\n"),
    (b"knots 1 2".ljust(65536) + b"\nshow knots", b"ok 2\n1 2\n"),
    (b"knots 1 2".ljust(65537) + b"\nshow knots", b"? line 4: the line is longer than 65536 bytes\n0 1 2\n"),
)

NO_UNIT = b"refused 12 at 0: the slope unit is not in 0 to 8\n"
BAD_UNIT = b"? line %d: number 1 is not in 0 to 4294967295\n"

# Lines on the unit, which come after the same three.
UNIT_LINES = (
    (b"show unit\nunit 0\nshow unit\nunit 4294967295\nshow unit", b"8\nok\n0\nok\n4294967295\n"),
    (b"unit 4\nbuild\nshow slopes\nunit 0\nshow slopes\nbuild\nshow slopes", b"ok\nok\n0 24 64\nok\n0 24 64\nok\n0 1 4\n"),
    # Nothing is asked of the table, and the next call refuses it. That is asked first, and nothing is written.
    (
        b"unit 9\nbuild\ncheck\nat 1\nat 9\ndrive 1\nchange 1 1 2\nchange 3 1 2\npiece 1 1 1 1\npiece 0 1 1 1\npiece 1 1048577 1 1\n" + SHOW_ALL,
        b"ok\n" + NO_UNIT * 10 + b"0 1 2\n0 1 4\n7 8 9\n",
    ),
    (
        b"unit 4294967295\nvalues 0 1\nbuild\ncheck\nat 1\ndrive 1\nchange 1 1 2\nvalues\nknots\nslopes\nbuild\ncheck\nat 1\ndrive 1\nchange 1 1 2\nunit 8\nbuild",
        b"ok\nok 2\n" + NO_UNIT * 5 + b"ok 0\n" * 3 + NO_UNIT * 5 + b"ok\nrefused 2 at 0: fewer than 2 or more than 1024 points\n",
    ),
    (
        b"unit 9\nvalues 0 1\nbuild\nunit 7\nbuild\ncheck",
        b"ok\nok 2\n" + NO_UNIT + b"ok\n" + b"refused 1 at 0: the lists' lengths differ\n" * 2,
    ),
    # Pieces, values and the drive in whole values. A half is told from what is beside it by a divisor that is odd too.
    (b"unit 0\npiece 1 1 3 3\npiece 1 1 4 1\npiece 1 1 4 0\npiece 1 1 3 4", b"ok\nrising\nrising\nbends\nbends\n"),
    (b"unit 0\nslopes 0 3 9\ncheck\nat 1\ndrive 1\ndrive 2", b"ok\nok 3\nok\n1\nmove 1 0 1\nmove 1 3 1\n"),
    (b"unit 0\nslopes 0 4 0\ncheck", b"ok\nok 3\nrefused 5 at 0: a piece is not monotone\n"),
    (
        b"unit 0\nknots 0 3\nvalues 0 1\nslopes 1 1\nat 0\nat 1\nat 2\nat 3\ndrive 1\nvalues 0 -1\nslopes -1 -1\nat 1\ndrive 1",
        b"ok\nok 2\nok 2\nok 2\n0\n0\n1\n1\nmove 0 13 27\nok 2\nok 2\n0\nmove 0 -13 27\n",
    ),
    (
        b"unit 4\nknots 0 3\nvalues 0 1\nbuild\nslopes 0 0\nbuild\nshow slopes\ndrive 1",
        b"ok\nok 2\nok 2\nrefused 1 at 0: the lists' lengths differ\nok 2\nok\n5 5\nmove 0 142 432\n",
    ),
    # The drive's limit is not in units.
    (
        b"unit 0\nknots 0 1024\nvalues 0 1025\nslopes 0 0\nat 512\ndrive 512\nvalues 0 1024\ndrive 512",
        b"ok\nok 2\nok 2\nok 2\n513\nrefused 8 at 0: piece too large for the exact float answer\nok 2\nmove 0 549755813888 1073741824\n",
    ),
    # A change in another unit than the build's: what it renews is in the new one, and nothing else moves.
    (
        b"knots 0 1 2 3 4 5 6\nvalues 0 1 2 3 4 5 6\nslopes 0 0 0 0 0 0 0\nbuild\nunit 4\nchange 3 3 4\nshow slopes\nunit 8\nshow slopes",
        b"ok 7\n" * 3 + b"ok\nok\nok\n256 256 21 0 0 256 256\nok\n256 256 21 0 0 256 256\n",
    ),
    # Faults of the line, which leave the unit as it was.
    (
        b"unit 5\nunit\nunit 1 2\nunit x y\nunit x\nunit +8\nunit -1\nunit 4294967296\nunit 99999999999999999999\nunit -99999999999999999999\nshow unit",
        b"ok\n? line 5: too few words\n? line 6: too many words\n? line 7: too many words\n"
        b"? line 8: number 1 is not a whole decimal number\n? line 9: number 1 is not a whole decimal number\n"
        + BAD_UNIT % 10 + BAD_UNIT % 11 + BAD_UNIT % 12 + BAD_UNIT % 13 + b"5\n",
    ),
    (b"unit -0\nshow unit\nunit\t0007 \r\nshow unit\r\n", b"ok\n0\nok\n7\n"),
    (
        b"Unit 3\nunits 3\nshow Unit\nshow units\nshow unit 8\nshow unit",
        b"? line 4: no such command\n? line 5: no such command\n? line 6: no such list\n? line 7: no such list\n? line 8: too many words\n8\n",
    ),
)


def set_level(count):
    """Lines that set a level table of so many points."""
    knots = b" ".join(b"%d" % knot for knot in range(count))
    return b"knots %b\nvalues%b\nslopes%b\n" % (knots, b" 3" * count, b" 5" * count)


def level_table(count, tail=b""):
    """Lines that set a level table of so many points, then TAIL, build, and show the slopes."""
    return set_level(count) + tail + b"build\nshow slopes\n"


# Whole inputs, with tables of the most points, and one more.
COUNT_LINES = (
    (b"show knots\nshow values\nshow slopes\nbuild", b"\n\n\nrefused 2 at 0: fewer than 2 or more than 1024 points\n"),
    (level_table(1024), b"ok 1024\n" * 3 + b"ok\n0" + b" 0" * 1023 + b"\n"),
    (
        level_table(1025),
        b"ok 1025\n" * 3 + b"refused 2 at 0: fewer than 2 or more than 1024 points\n5" + b" 5" * 1024 + b"\n",
    ),
    (
        level_table(1025, b"knots" + b" 1" * 1025 + b"\n"),
        b"ok 1025\n" * 4 + b"refused 2 at 0: fewer than 2 or more than 1024 points\n5" + b" 5" * 1024 + b"\n",
    ),
    (
        level_table(1024, b"values" + b" 3" * 1023 + b" -1048574\n"),
        b"ok 1024\n" * 4 + b"refused 4 at 1022: a rise is outside its limits\n5" + b" 5" * 1023 + b"\n",
    ),
    (b"check\nat 0\ndrive 0", b"refused 2 at 0: fewer than 2 or more than 1024 points\n" * 3),
    (
        set_level(1024) + b"check\nbuild\ncheck\nat 0\nat 1023\nat 1024",
        b"ok 1024\n" * 3 + b"refused 5 at 0: a piece is not monotone\nok\nok\n3\n3\n"
        b"refused 6 at 0: position before the first or after the last knot\n",
    ),
    (
        set_level(1024) + b"slopes" + b" 0" * 1023 + b" 1\ncheck\nat 0",
        b"ok 1024\n" * 4 + b"refused 5 at 1022: a piece is not monotone\n" * 2,
    ),
    (
        set_level(1025) + b"check\nat 0",
        b"ok 1025\n" * 3 + b"refused 2 at 0: fewer than 2 or more than 1024 points\n" * 2,
    ),
    (b"change 0 0 0\nchange -1 0 0", b"refused 2 at 0: fewer than 2 or more than 1024 points\n" * 2),
    (
        set_level(1024) + b"change 1023 1024 5\nchange 1024 1025 3\nchange 1023 1022 3\nshow slopes",
        b"ok 1024\n" * 3 + b"ok\nrefused 7 at 0: no point with this number\n"
        b"refused 3 at 1022: a width is not in 1 to 1024\n5" + b" 5" * 1021 + b" 0 426\n",
    ),
    (
        set_level(1025) + b"change 0 0 3\nchange 1025 0 0\nshow slopes",
        b"ok 1025\n" * 3 + b"refused 2 at 0: fewer than 2 or more than 1024 points\n" * 2 + b"5" + b" 5" * 1024 + b"\n",
    ),
)


def is_never_negative(Z, a, b, most):
    """Document 01's expression at every fraction k/q of the width, for q up to MOST."""
    return all(
        a * q * q + 2 * (3 * Z - 2 * a - b) * k * q + 3 * (a + b - 2 * Z) * k * k >= 0
        for q in range(1, most + 1)
        for k in range(q + 1)
    )


def verdict_by_trying(rise, Z, a, b, most):
    if rise > 0:
        return "rising" if is_never_negative(Z, a, b, most) else "bends"
    if rise < 0:
        return "falling" if is_never_negative(-Z, -a, -b, most) else "bends"
    return "flat" if a == b == 0 else "bends"


def small_pieces():
    """Pieces with a and b in steps of half a unit, or of a slope where that is more, from below 0 to above 4Z: as an s, width, rise and slopes."""
    for s, rises in ((S, (-2, -1, 0, 1, 2)), (0, (-2, -1, 0, 1, 2)), (1, (-1, 1)), (4, (1,))):
        for width, rise in product((1, 2), rises):
            step = max(UNITS[s] // (2 * width), 1)
            sign, most = (-1 if rise < 0 else 1), 4 * UNITS[s] * abs(rise) // (step * width)
            slopes = [sign * step * count for count in range(-1, most + 2)]
            yield from ((s, width, rise, left, right) for left in slopes for right in slopes)


def piece_fault():
    """A sentence on the first piece that the reference judges wrongly, or None."""
    for *numbers, expected in (*((S, *figure) for figure in FIGURES), *UNIT_PIECES):
        if verdict(*numbers) != expected:
            return f"s and piece {numbers} are {expected} in the documents, and the reference says {verdict(*numbers)}"
    for piece in small_pieces():
        s, width, rise, left, right = piece
        # In these steps 3(a + b - 2Z) is at most 78, and so is the q of a vertex inside: if the
        # expression is negative anywhere, it is so at a q up to 78.
        tried = verdict_by_trying(rise, UNITS[s] * rise, left * width, right * width, 78)
        if verdict(*piece) != tried:
            return f"s and piece {piece} are {tried} by trying every fraction, and the reference says {verdict(*piece)}"
    return None


def inner_slope_by_counting(s, h1, z1, h2, z2):
    """For rises above 0: the last whole number, counted up from 0, that is not above document 01's quotient."""
    slope = 0
    while (slope + 1) * ((h1 + 2 * h2) * h1 * z2 + (2 * h1 + h2) * h2 * z1) <= 3 * UNITS[s] * (h1 + h2) * z1 * z2:
        slope += 1
    return slope


def is_mean_rounded_down(slope, s, h1, z1, h2, z2):
    """For rises above 0: whether the slope is the mean of Fritsch and Butland, rounded down.

    It is a weighted harmonic mean, 1/m = w/s1 + (1 - w)/s2, of the slopes s1 and s2 of the two pieces.
    """
    s1, s2 = Fraction(UNITS[s] * z1, h1), Fraction(UNITS[s] * z2, h2)
    w = Fraction(h1 + 2 * h2, 3 * (h1 + h2))
    mean = 1 / (w / s1 + (1 - w) / s2)
    return slope <= mean < slope + 1


def inner_slope_fault():
    """A sentence on the first slope at an inner point that is wrong, or None."""
    for s, h1, z1, h2, z2 in product(ALL, *((1, 2, 3),) * 4):
        if inner_slope(s, h1, z1, h2, z2) != inner_slope_by_counting(s, h1, z1, h2, z2):
            return f"the slope between {h1, z1} and {h2, z2}, with s {s}, is not the one found by counting"
    for s, pair in product(ALL, product((1, 3, 7, 1023, 1024), (1, 5, 999, 1048576), repeat=2)):
        h1, z1, h2, z2 = pair
        slope, there = inner_slope(s, *pair), f"the slope between {h1, z1} and {h2, z2}, with s {s},"
        if not is_mean_rounded_down(slope, s, *pair):
            return f"{there} is not the mean of Fritsch and Butland, rounded down"
        if inner_slope(s, h1, -z1, h2, -z2) != -slope:
            return f"{there} is not that of the other signs with a minus"
        if inner_slope(s, h1, -z1, h2, z2) or inner_slope(s, h1, z1, h2, -z2) or inner_slope(s, h1, 0, h2, z2):
            return f"{there} with one of them turned or level, is not 0"
    return None


def secant_slope_fault():
    """A sentence on the first slope of two points that is wrong, or None."""
    for s, width, rise in product(ALL, (1, 2, 3, 7, 255, 256, 257, 1023, 1024), (0, 1, 2, 3, 5, 999, 1048575, 1048576)):
        size = UNITS[s] * rise // width
        if (secant_slope(s, width, rise), secant_slope(s, width, -rise)) != (size, -size):
            return f"the slope of two points of width {width} and rise {rise}, or {-rise}, with s {s}, is not {size} with its sign"
    return None


def end_slope_in_wholes(s, h1, z1, h2, z2):
    """The slope at an end by one division of whole numbers, and without a look at the neighbour's sign, or at whether there is a rise.

    With equal signs the quotient stays below twice the secant, so that it never reaches the bound; and without a rise the bound is 0.
    """
    rise, beside = (z1, z2) if z1 >= 0 else (-z1, -z2)
    above, below = (2 * h1 + h2) * h2 * rise - h1 * h1 * beside, h2 * (h1 + h2)
    if above <= 0:
        size = 0
    elif above > 3 * rise * below:
        size = 3 * UNITS[s] * rise // h1
    else:
        size = UNITS[s] * above // (h1 * below)
    return size if z1 >= 0 else -size


def end_pieces():
    """End pieces with their neighbours: all small ones, those at the limits, at the borders of the rule and beside them, and any."""
    yield from product(range(1, 5), range(-9, 10), repeat=2)
    yield from product((1, 2, 3, 1023, 1024), (-1048576, -1048575, -999, -1, 0, 1, 5, 349525, 1048576), repeat=2)
    for h1, h2 in (*product(range(1, 13), repeat=2), *product((1, 2, 96, 512, 1020, 1024), repeat=2)):
        for z1, z2 in at_the_borders(h1, h2):
            yield from ((h1, z1, h2, z2 + step) for step in (-1, 0, 1))
    dice = Dice(45)
    for _ in range(4000):
        h1, h2, z1, z2 = (dice.up_to_any_size(most) for most in (1024, 1024, 1048576, 1048576))
        yield h1, z1, h2, dice.pick(1, -1) * z2


def end_slope_fault():
    """A sentence on the first slope at an end of three points or more that is wrong, or None."""
    for h1, z1, h2, z2, slope in END_FIGURES:
        first, *_ = built_slopes(S, (0, h1, h1 + h2), (0, z1, z1 + z2))
        *_, last = built_slopes(S, (0, h2, h1 + h2), (0, z2, z1 + z2))
        if (end_slope(S, h1, z1, h2, z2), first, last) != (slope, slope, slope):
            return f"the slope at the end of {h1, z1} with the neighbour {h2, z2} is not {slope}, or not at both ends"
    for piece, other in zip(end_pieces(), cycle(ALL)):
        h1, z1, h2, z2 = piece
        for s in {S, other}:
            slope = end_slope(s, *piece)
            if slope != end_slope_in_wholes(s, *piece):
                return f"the slope at the end of {h1, z1} with the neighbour {h2, z2}, with s {s}, is not the one that whole numbers give"
            if end_slope(s, h1, -z1, h2, -z2) != -slope:
                return f"the slope at the end of {h1, -z1} with the neighbour {h2, -z2}, with s {s}, is not that of the other signs with a minus"
    return None


def small_tables():
    """Tables of three and four points with small steps, and of four with the least and the greatest, as widths and rises."""
    yield from product(product(range(1, 5), repeat=2), product(range(-6, 7), repeat=2))
    yield from product(product((1, 2, 3), repeat=3), product(range(-3, 4), repeat=3))
    yield from product(product((1, 1024), repeat=3), product((-1048576, -1, 0, 1, 1048576), repeat=3))


def table_fault():
    """A sentence on the first table whose slopes are wrong, or None."""
    for *piece, expected in FIGURES:
        width, rise, *slopes = piece
        if (check_refusal(S, (0, width), (0, rise), slopes) is None) == (expected == "bends"):
            return f"piece {piece} is {expected} in document 01, and a check of it as a table says otherwise"
    for s, knots, values, expected in (*((S, *figure) for figure in (*BUILT_FIGURES, *BORDER_FIGURES)), *UNIT_FIGURES):
        if built_slopes(s, knots, values) != expected:
            return f"knots {knots} and values {values} must have slopes {expected} with s {s}, and do not in the reference"
    for (widths, rises), s in zip(small_tables(), cycle((S, 0, S, 1, S, 2, S, 3, S, 4, S, 5, S, 6, S, 7, S))):
        knots, values = ([sum(steps[:place]) for place in range(len(steps) + 1)] for steps in (widths, rises))
        slopes = built_slopes(s, knots, values)
        if check_refusal(s, knots, values, slopes):
            return f"knots {knots}, values {values} with slopes {slopes}, built with s {s}, are refused by a check"
        for place, (width, rise) in enumerate(zip(widths, rises)):
            monotone = "rising" if rise > 0 else "falling" if rise < 0 else "flat"
            if verdict(s, width, rise, slopes[place], slopes[place + 1]) != monotone:
                return f"piece {place} of knots {knots}, values {values}, slopes {slopes}, built with s {s}, is not {monotone}"
    return None


def built_points(cases):
    """The knots and the values of every table that lines build or change. Other lines leave them as they are, and are not obeyed."""
    workbench, found = Workbench(), set()
    for line in lines_of(cases):
        command = line.partition(b" ")[0]
        if command in (*LISTS, b"unit", b"build", b"change") and workbench.answer(line) == "ok" and command != b"unit":
            _, knots, values, _ = workbench.table()
            found.add((tuple(knots), tuple(values)))
    return sorted(found)


def coarser_fault(cases):
    """A sentence on the first table of the cases whose slopes in some unit are not those in the finest one, cut toward zero, or None.

    This rests on no rule for a slope: rounding toward zero twice, and the second time from a multiple of the unit, is rounding once.
    """
    tables = built_points(cases)
    for knots, values in tables:
        finest = built_slopes(S, knots, values)
        for s in ALL:
            parts = UNITS[S] // UNITS[s]
            if built_slopes(s, knots, values) != [abs(slope) // parts * (1 if slope > 0 else -1) for slope in finest]:
                return f"knots {knots[:9]} and values {values[:9]}, {len(knots)} of them: with s {s} the slopes are not those with s {S}, cut toward zero"
    return None if len(tables) >= 3500 else f"only {len(tables)} tables of the cases were built in each unit"


def numerator_by_line(s, width, rise, left_slope, right_slope, t):
    """The numerator at T by document 01's line."""
    Z, a, b = UNITS[s] * rise, left_slope * width, right_slope * width
    return a * t * width**2 + (3 * Z - 2 * a - b) * t**2 * width + (a + b - 2 * Z) * t**3


def half_up(over, under):
    """A quotient rounded to the nearest whole number, a half going up, as one floor: request 6 without distances."""
    return (2 * over + under) // (2 * under)


def value_by_line(s, width, rise, left_slope, right_slope, t):
    """Document 01's line: how far the value at T is above the left value."""
    return half_up(numerator_by_line(s, width, rise, left_slope, right_slope, t), UNITS[s] * width**3)


def in_units(shapes):
    """All these shapes in document 01's unit, and a third of them in the others, in turn."""
    shapes = list(shapes)
    yield from ((S, shape) for shape in shapes)
    yield from zip(cycle(ALL), shapes[::3])


def monotone_pieces():
    """Pieces that a check accepts, of all sizes, with a and b in halves of Z as near as whole slopes come, each behind its s."""
    for s, (width, rise) in in_units(product((1, 2, 3, 7, 1023, 1024), (0, 1, 5, 999, 1048576))):
        for halves in product((0, 1, 2, 6, 8), repeat=2):
            left, right = (half * UNITS[s] * rise // (2 * width) for half in halves)
            if verdict(s, width, rise, left, right) != "bends":
                yield s, width, rise, left, right
                yield s, width, -rise, -left, -right


def value_fault():
    """A sentence on the first value that is wrong, or None."""
    for s, width, rise, left, right in monotone_pieces():
        table = s, (-5, width - 5), (7, 7 + rise), (left, right)
        steps = sorted({0, 1, 2, width // 3, width // 2, width - 1, width} & {*range(width + 1)})
        values = [value_at(*table, t - 5) for t in steps]
        if values != [7 + value_by_line(s, width, rise, left, right, t) for t in steps]:
            return f"s, knots, values and slopes {table} do not have the values of document 01's line"
        if (values[0], values[-1]) != (7, 7 + rise) or values != sorted(values, reverse=rise < 0):
            return f"s, knots, values and slopes {table} have values that do not go from the left one to the right one"
    return None


# Widths whose cube divides 2^40, and the greatest rise of each that has a float answer. The last is document 01's own.
GREATEST_IN_FLOATS = ((128, 524288), (256, 65536), (512, 8192), (1024, 1024))


def greatest_in_floats(width):
    """The greatest rise of this width that has a float answer: document 01's 1024 at 1024, by the cube of the ratio."""
    return min(1024 * Fraction(1024, width) ** 3 // 1, 1048576)


def float_limit_fault():
    """A sentence on the first piece that is wrongly refused to the drive, or not refused, or None."""
    for width, rise in GREATEST_IN_FLOATS:
        if greatest_in_floats(width) != rise:
            return f"the greatest rise for the drive at width {width} must be {rise}"
    for width, s in zip(range(1, 1025), cycle(ALL)):
        greatest = greatest_in_floats(width)
        for rise in (greatest - 1, greatest, greatest + 1):
            expected = refusal(4, 0) if rise > 1048576 else refusal(8, 0) if rise > greatest else None
            for values in (0, rise), (0, -rise):
                if drive_refusal(s, (0, width), values, (0, 0), 0) != expected:
                    return f"s {s}, knots {0, width}, values {values}: the drive is not refused as it must be, {expected}"
    return None


def horner_steps(s, width, rise, left_slope, right_slope, t):
    """Every result on the way to the numerator by Horner's steps, and the numerator at the end. Floats give floats."""
    Z, a, b = UNITS[s] * rise, left_slope * width, right_slope * width
    third, second, first = (a + b - 2 * Z) * t, (3 * Z - 2 * a - b) * width, a * width * width
    inner = third + second
    outer = inner * t + first
    return third, second, first, inner, inner * t, outer, outer * t


def pieces_for_floats():
    """Pieces that a check accepts, at the limit of the float answer and below it, of all shapes, each behind its s.

    a and b are in hundredths of Z, as near as whole slopes come. 3Z - 2a - b is largest in size at 3.73 and 2.
    """
    points = (*product((0, 50, 100, 200, 300, 400), repeat=2), (373, 200), (200, 373))
    widths = (1, 2, 3, 7, 50, 101, 102, 103, 128, 200, 256, 341, 511, 512, 513, 777, 1000, 1023, 1024)
    most = [(width, greatest_in_floats(width)) for width in widths]
    for s, (width, rise) in in_units((width, rise) for width, great in most for rise in (great, great - 1, great * 2 // 3)):
        for point in points:
            left, right = (hundredths * UNITS[s] * rise // (100 * width) for hundredths in point)
            if verdict(s, width, rise, left, right) != "bends":
                yield s, width, rise, left, right
                yield s, width, -rise, -left, -right


def drive_fault():
    """A sentence on the first of the drive's numbers that is wrong, or that no float is, or None."""
    for piece in pieces_for_floats():
        s, width, rise, left, right = piece
        table = s, (-5, width - 5), (7, 7 + rise), (left, right)
        for t in sorted({0, 1, width // 3, width // 2, width - 1, width}):
            numbers = (7, numerator_by_line(*piece, t), UNITS[s] * width**3)
            if drive_at(*table, t - 5) != ("move", *numbers):
                return f"s, knots, values and slopes {table} do not have document 01's numerator at {t - 5}"
            if any(int(float(number)) != number for number in numbers):
                return f"s, knots, values and slopes {table} have a number at {t - 5} that is no 64-bit float"
            wholes, floats = horner_steps(*piece, t), horner_steps(s, *map(float, piece[1:]), float(t))
            if wholes[-1] != numbers[1] or any(int(step) != whole for step, whole in zip(floats, wholes)):
                return f"s, knots, values and slopes {table} have a step at {t - 5} that floats do not give exactly"
            if half_up(numbers[0] * numbers[2] + numbers[1], numbers[2]) != value_at(*table, t - 5):
                return f"s, knots, values and slopes {table} have another value at {t - 5} than the drive's division gives"
    return None


def position_fault():
    """A sentence on the first position that is given to a wrong piece, or None."""
    for widths in product((1, 2, 3), repeat=3):
        knots = [sum(widths[:place]) for place in range(4)]
        for place, width in enumerate(widths):
            for position in range(knots[place], knots[place] + width):
                if piece_at(knots, position) != place:
                    return f"position {position} of knots {knots} is not given to piece {place}"
        if piece_at(knots, knots[3]) != 2:
            return f"the last of the knots {knots} is not given to the last piece"
    return None


def workbench_with(s, knots, values, slopes):
    """A workbench that has this unit and these lists."""
    workbench = Workbench()
    workbench.s = s
    workbench.lists = dict(zip(LISTS, map(list, (knots, values, slopes))))
    return workbench


def cause_by_cases(s, knots, values, slopes, point, knot, value):
    """The number and the place of a change's refusal, or None: each piece asked by itself, and no list copied."""
    if s not in ALL:
        return 12, 0
    if len({len(knots), len(values), len(slopes)}) > 1:
        return 1, 0
    if len(slopes) in (0, 1) or len(slopes) > 1024:
        return 2, 0
    if point not in range(len(slopes)):
        return 7, 0
    bad_widths, bad_rises = [], []
    for left in range(len(slopes) - 1):
        width, rise = knots[left + 1] - knots[left], values[left + 1] - values[left]
        if left + 1 == point:
            width, rise = knot - knots[left], value - values[left]
        if left == point:
            width, rise = knots[left + 1] - knot, values[left + 1] - value
        if width <= 0 or width >= 1025:
            bad_widths.append((3, left))
        if abs(rise) >= 1048577:
            bad_rises.append((4, left))
    return (*bad_widths, *bad_rises, None)[0]


def points_read(count, place):
    """The points from which a build of so many makes the slope at a place: three in a row, or the only two."""
    first = max(0, min(place - 1, count - 3))
    return range(first, min(first + 3, count))


def end_by_parabola(s, knots, values, place):
    """The slope at an end: of all from 0 to three times the secant the one nearest to that of the parabola through the three points there."""
    near = 1 if place == 0 else place - 1
    steepest = 3 * Fraction(values[near] - values[place], knots[near] - knots[place])
    one, two, three = points_read(len(knots), place)
    # Lagrange's parabola is a sum of each value times a product that is 1 at its own knot and 0 at the two others. Here are their slopes.
    parabola = sum(
        Fraction(values[i] * (2 * knots[place] - knots[j] - knots[k]), (knots[i] - knots[j]) * (knots[i] - knots[k]))
        for i, j, k in ((one, two, three), (two, three, one), (three, one, two))
    )
    return int(UNITS[s] * sorted((0, parabola, steepest))[1])


def slope_by_cases(s, knots, values, place):
    """The slope that a build of good points gives to one of them: Fritsch and Butland's mean, or an end's, or the only piece's own."""
    if 0 < place < len(knots) - 1:
        h1, h2 = knots[place] - knots[place - 1], knots[place + 1] - knots[place]
        z1, z2 = values[place] - values[place - 1], values[place + 1] - values[place]
        if z1 == 0 or z2 == 0 or (z1 > 0) != (z2 > 0):
            return 0
        w = Fraction(h1 + 2 * h2, 3 * (h1 + h2))
        size = 1 / (w * h1 / (UNITS[s] * abs(z1)) + (1 - w) * h2 / (UNITS[s] * abs(z2))) // 1
        return size if z1 > 0 else -size
    if len(knots) > 2:
        return end_by_parabola(s, knots, values, place)
    width, rise = knots[1] - knots[0], values[1] - values[0]
    return UNITS[s] * rise // width if rise > 0 else -(UNITS[s] * -rise // width)


def change_by_cases(s, knots, values, slopes, point, knot, value):
    """The answer to a change, and the three lists after it, written entry by entry."""
    cause = cause_by_cases(s, knots, values, slopes, point, knot, value)
    if cause is not None:
        return refusal(*cause), [knots, values, slopes]
    new_knots, new_values, new_slopes = list(knots), list(values), list(slopes)
    new_knots[point], new_values[point] = knot, value
    for place in range(len(slopes)):
        if point in points_read(len(slopes), place):
            new_slopes[place] = slope_by_cases(s, new_knots, new_values, place)
    return "ok", [new_knots, new_values, new_slopes]


def in_steps(dice, count, steps):
    """So many numbers, each one of these steps from the one before it."""
    numbers = []
    for _ in range(count):
        numbers.append(numbers[-1] + dice.pick(*steps) if numbers else dice.between(-9, 9))
    return numbers


def at_an_end(dice, numbers):
    """The numbers as they are, or moved until one of them is at an end of 32 bits."""
    step = dice.pick(0, 0, 0, I32_MIN - min(numbers), I32_MAX - max(numbers)) if numbers else 0
    return [number + step for number in numbers]


def beside_any(dice, numbers, steps):
    """A number that is one of these steps from one of the numbers, or an end of 32 bits."""
    number = dice.pick(*numbers) + dice.pick(*steps) if numbers else 0
    return dice.pick(I32_MIN, I32_MAX, *[min(max(number, I32_MIN), I32_MAX)] * 18)


def any_change(dice):
    """A small table and a change of it, either of them good or bad: knots, values, slopes, point, knot, value."""
    count = dice.pick(0, 1, 2, 2, 2, 3, 3, 3, 4, 4, 5, 6, 7)
    widths = (*range(1, 9), *range(1, 9), *range(1, 9), 1024, dice.pick(0, -1, 1025))
    rises = (*range(-9, 30), dice.pick(1048576, -1048576), dice.pick(1048577, -1048577))
    knots, values = at_an_end(dice, in_steps(dice, count, widths)), at_an_end(dice, in_steps(dice, count, rises))
    slopes = [dice.pick(I32_MIN, I32_MAX, dice.between(I32_MIN, I32_MAX)) for _ in range(count)]
    point = dice.between(-1, count)
    near = slice(max(point - 1, 0), point + 2)
    knot = beside_any(dice, knots[near], (-1024, -3, -2, -1, 0, 1, 2, 3, 1024))
    value = beside_any(dice, values[near], (-1048576, -9, -5, 0, 5, 9, 1048576))
    if dice.between(0, 19) == 0:
        of_another_length = dice.pick(knots, values, slopes)
        of_another_length[:] = (*of_another_length, 0, 0)[: dice.between(0, count + 2)]
    return knots, values, slopes, point, knot, value


def change_fault():
    """A sentence on the first change that is wrong, or None."""
    for built, change, answer, lists in CHANGED_FIGURES:
        workbench = workbench_with(S, *built)
        if (workbench.change(*change), workbench.table()) != (answer, [S, *lists]):
            return f"the change {change} of {built} does not give {answer} and {lists}"
    dice, answers = Dice(42), set()
    for _ in range(6000):
        s, (*lists, point, knot, value) = dice.pick(*ALL, *ALL, S, S, 9, dice.between(9, 2**32 - 1)), any_change(dice)
        workbench = workbench_with(s, *lists)
        answer, lists_after = change_by_cases(s, *lists, point, knot, value)
        if (workbench.change(point, knot, value), workbench.table()) != (answer, [s, *lists_after]):
            return f"the change {point, knot, value} of {lists} does not give {answer} and {lists_after}, with s {s}"
        answers.add(answer)
    # Done, the four causes that are always at 0, and two that are at each of six pieces.
    return None if len(answers) == 17 else f"{len(answers)} answers to changes were tried, and it must be 17"


def renewed_fault():
    """A sentence on the first point whose change renews other slopes than it can alter in a build, or None."""
    dice = Dice(46)
    for count, ranges in RENEWED.items():
        for point, (first, last) in enumerate(ranges):
            expected, altered = list(range(first, last + 1)), set()
            for _ in range(60):
                knots, values = in_steps(dice, count, range(3, 9)), in_steps(dice, count, range(-9, 10))
                change = point, knots[point] + dice.between(-2, 2), values[point] + dice.between(-9, 9)
                *points, slopes = changed_table(S, knots, values, [I32_MIN] * count, *change)  # no build gives such a slope
                if [place for place, slope in enumerate(slopes) if slope != I32_MIN] != expected:
                    return f"the change {change} of knots {knots} and values {values} does not renew the slopes {expected} alone"
                before, after = built_slopes(S, knots, values), built_slopes(S, *points)
                altered |= {place for place in range(count) if before[place] != after[place]}
            if sorted(altered) != expected:
                return f"changes of point {point} of {count} alter the slopes {sorted(altered)}, and it must be {expected}"
    return None


def chain_fault():
    """A sentence on the first change in a chain that does not leave what a build gives, or None."""
    dice, done = Dice(43), 0
    for count, s in zip((*range(2, 8), 30) * 20, cycle(ALL)):
        points = in_steps(dice, count, range(3, 9)), in_steps(dice, count, range(-9, 30))
        workbench = workbench_with(s, *points, built_slopes(s, *points))
        for _ in range(12):
            before, point = [list(numbers) for numbers in workbench.table()[1:]], dice.between(0, count - 1)
            knot, value, _ = (numbers[point] for numbers in before)
            change = point, knot + dice.between(-4, 4), value + dice.between(-20, 20)
            done += workbench.change(*change) == "ok"
            _, knots, values, slopes = workbench.table()
            if slopes != built_slopes(s, knots, values):
                return f"the change {change} of {before}, with s {s}, leaves slopes {slopes}, and a build gives others"
            workbench.change(point, knot, value)
            if workbench.table() != [s, *before]:
                return f"the change {change} of {before}, undone, leaves {workbench.table()}"
            workbench.change(*change)
    return None if done >= 1000 else f"only {done} changes in chains were not refused"


def line_fault():
    """A sentence on the first line that the reference answers wrongly, or None."""
    after_table = [(SET_TABLE + data, b"ok 3\n" * 3 + expected) for data, expected in (*TABLE_LINES, *UNIT_LINES)]
    for data, expected in (*LINES, *after_table, *COUNT_LINES):
        if answers_to(data) != expected:
            return f"{data[:120]!r} must give {expected[:120]!r}, and the reference gives {answers_to(data)[:120]!r}"
    return None


def first_fault():
    """A sentence on the first thing that is wrong with the reference, or None."""
    return (
        piece_fault() or inner_slope_fault() or secant_slope_fault() or end_slope_fault() or table_fault()
        or value_fault() or float_limit_fault() or drive_fault() or position_fault() or change_fault() or renewed_fault()
        or chain_fault() or line_fault()
    )
