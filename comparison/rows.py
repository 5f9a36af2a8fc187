"""Lines on which the program and the reference are compared: those that set, show and build, and each of their faults.

A line that has a fault is followed by a look at the list, which must be as it was.
"""
from dice import I32_MAX, I32_MIN, I64_MAX
from reference import LONGEST_LINE, LONGEST_ROW
from tables import BUILD_AND_SHOW, BUILD_AND_SHOW_ALL, NAMES, SHOW_ALL, digits, row


def table_to_build():
    """Lists whose slopes a build would change."""
    yield from (b"knots 0 1 2", b"values 0 1 4", b"slopes 7 8 9")


def row_lengths():
    """A row of 2048 numbers is the longest. With one more, it changes nothing."""
    yield row(b"slopes", digits(LONGEST_ROW - 1))
    yield b"show slopes"
    for name in NAMES:
        yield row(name, digits(LONGEST_ROW))
        yield b"show " + name
    yield from BUILD_AND_SHOW
    # The count is asked before the numbers.
    for name, word in zip(NAMES, (b"0", b"x", b"2147483648")):
        yield row(name, [0] * LONGEST_ROW) + b" " + word
        yield b"show " + name
    yield from BUILD_AND_SHOW
    yield from NAMES
    yield from SHOW_ALL


def row_faults():
    """Faults at numbers of one to four digits. The list keeps its numbers, and its length."""
    for name in NAMES:
        yield row(name, digits(12))
    for place in (1, 2, 9, 10, 12, 13, 99, 100):
        for name in NAMES:
            for words in (b" x", b" 2147483648 0 y 2147483648"):
                yield row(name, [0] * (place - 1)) + words
                yield b"show " + name
    for place, name, word in ((999, b"knots", b"-"), (1000, b"values", b"-2147483649"), (2048, b"slopes", b"0x")):
        yield row(name, [0] * (place - 1)) + b" " + word
        yield b"show " + name
    yield from BUILD_AND_SHOW_ALL


def row_numbers():
    """Words that are numbers and words that are not, in each list."""
    for name in NAMES:
        for word in (
            b"0", b"-0", b"00", b"-000", b"007", b"-01", b"0" * 40 + b"1", b"-" + b"0" * 40 + b"12",
            b"%d" % I32_MAX, b"%d" % I32_MIN, b"0" * 30 + b"%d" % I32_MAX, b"-" + b"0" * 30 + b"%d" % -I32_MIN,
            b"%d" % (I32_MAX + 1), b"%d" % (I32_MIN - 1), b"4294967295", b"4294967296", b"-4294967296", b"4294967297",
            b"%d" % I64_MAX, b"9223372036854775808", b"18446744073709551617", b"9" * 40, b"-" + b"9" * 40,
            b"+1", b"1.0", b"--1", b"-", b"1e3", b"0x10", b"1_0", b"1-", b"x", b"1,", b"/", b":", b"1\x00",
            b"\xb2", b"1\xff",
        ):
            yield name + b" 5 " + word + b" 6"
            yield b"show " + name


def row_order_of_faults():
    """Several faults in one row: the first number that has one is named, whatever it is."""
    yield b"knots 3 4"
    yield from (b"knots x 2147483648", b"knots 2147483648 x", b"knots 1 2147483648 - 99999999999999999999")
    yield from (b"knots 1 2 3 x y z", b"knots show knots", b"knots knots 1 2", b"knots 1 2 # two", b"knots 1; values 2")
    yield b"show knots"


def row_blanks():
    for name in NAMES:
        for tail in (b"", b" ", b"\t", b" \t ", b"\r", b" \r", b" 1 2\r", b"\t1\t2", b"   1 \t 2 \t", b" 1 2 3 \t\r"):
            yield name + tail
            yield b"show " + name
        yield b" \t" + name + b" -4 -5"
        yield b"\tshow\t" + name + b" "
        # A CR elsewhere is a byte like any other.
        for tail in (b" 1 2\r\r", b" 1\r 2", b"\r1 2", b" 1 2 \r\r", b"\r\r", b" 1\x0b2", b" 1\xa02"):
            yield name + tail
            yield b"show " + name


def show_faults():
    yield from table_to_build()
    yield from (b"show", b"show ", b"show\t\r", b"show knots values", b"show knots knots", b"show knots 1", b"show x y")
    yield from (b"show knots values slopes", b"show knots \r\r", b"show knots #")
    for word in (
        b"Knots", b"KNOTS", b"knot", b"knotss", b"kno", b"valueS", b"value", b"valuess", b"slope", b"slopess",
        b"slopes,", b"snots", b"build", b"show", b"piece", b"all", b"0", b"1", b"-", b"#", b"knots\r\r",
        b"knots\x00", b"\xffknots", b"knots,values", b"knots\x0b",
    ):
        yield b"show " + word
    yield from SHOW_ALL
    yield from (b"show knots\r", b"show\tvalues", b"  show  slopes\t ")


def build_faults():
    yield from table_to_build()
    for tail in (b" x", b" 1", b" build", b" knots", b" slopes", b" 0 1 2", b" #", b" \r\r"):
        yield b"build" + tail
    yield from SHOW_ALL
    yield b" build\t"
    yield b"show slopes"
    yield b"slopes 7 8 9"
    yield b"build\r"
    yield b"show slopes"
    # A refusal is no fault of the line, and a fault of the line is no refusal.
    yield b"slopes 7"
    yield from (b"build", b"build x", b"show slopes")


def unknown_commands():
    yield from table_to_build()
    for word in (
        b"Knots", b"KNOTS", b"knot", b"knotss", b"knots,", b"knots1", b"k", b"stonk", b"knoTs", b"knots\x00",
        b"knots\r", b"Values", b"value", b"valuess", b"values=", b"vaules", b"Slopes", b"slope", b"slopess",
        b"slopes:", b"slops", b"\xffslopes", b"-slopes", b"lists", b"table",
    ):
        yield word + b" 5 6 7"
    for word in (
        b"Build", b"BUILD", b"builds", b"buil", b"build\r\r", b"build,", b"built", b"build\x00", b"rebuild",
        b"Show slopes", b"SHOW slopes", b"shows slopes", b"sho slopes", b"show, slopes", b"showslopes",
        b"show\x0bslopes",
    ):
        yield word
    yield from SHOW_ALL


def longest_lines():
    """2048 numbers behind zeros, in 65536 bytes, and 2048 of the longest. Then a good row in one byte more: it changes nothing."""
    numbers = [word.rjust(30, b"0") for word in (b"2147483647", b"1", b"0", b"2147483646")]
    line = b" ".join([b"values", *numbers * (LONGEST_ROW // 4)])
    yield line.ljust(LONGEST_LINE - 2) + b"\t \r"
    yield b"show values"
    # The longest answer that there is: each number takes eleven bytes.
    yield row(b"values", [I32_MIN] * LONGEST_ROW)
    yield b"show values"
    yield b"knots 5 6 7".ljust(LONGEST_LINE + 1)
    yield b"show knots"


def last_table():
    """A table to evaluate, and to stay, while the lines that follow are read. Nothing of those changes a list."""
    yield from (b"knots -3 1 2 5", b"values 90 50 7 -40", b"slopes -1 -22 -333 -4444")
    yield from SHOW_ALL


def last_table_again():
    yield from SHOW_ALL
    yield from BUILD_AND_SHOW_ALL


GROUPS = (
    ("Rows of 2047 numbers, 2048 and 2049.", row_lengths),
    ("Faults in rows, far and near.", row_faults),
    ("Numbers and other words in rows.", row_numbers),
    ("Several faults in one row: the first is named.", row_order_of_faults),
    ("Rows with spaces, tabs and CRs, and rows of nothing.", row_blanks),
    ("Lists to show that do not exist, and too few or too many of them.", show_faults),
    ("Builds with further words.", build_faults),
    ("Commands that are only like those of lists.", unknown_commands),
    ("Rows of 65536 bytes, and a longer one.", longest_lines),
    ("A table that stays while other lines are read.", last_table),
)
