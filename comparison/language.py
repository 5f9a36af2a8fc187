"""Lines on which the program and the reference are compared: how words and numbers are read, and each fault."""
from dice import I32_MAX, I32_MIN, I64_MAX, I64_MIN
from reference import LONGEST_LINE


def blanks():
    yield b"piece\t1\t1\t256\t256"
    yield b"  piece   1  1    256 256"
    yield b"\tpiece 1 \t 1\t \t256 256"
    yield b"piece 1 1 256 256 "
    yield b"piece 1 1 256 256\t \t"
    yield b" \t piece 1 -1 -256 -256 \t "
    yield from (b"at\t2", b"  at   2", b"\tat\t \t2 \t", b" \tcheck\t ")
    yield from (b"drive\t2", b"  drive   2", b"\tdrive\t \t2 \t")


def carriage_returns():
    yield b"piece 1 1 256 256\r"
    yield b"piece 1 1 768 769 \r"
    yield b"\r"
    yield b" \t\r"
    yield b"# a comment\r"
    yield b"piece 1 0 0 0\r"
    yield from (b"at 2\r", b"at 2 \t\r", b"check\r", b"check \r", b"drive 2\r", b"drive 2 \t\r")
    # Only one CR, and only at the end, belongs to the ending.
    yield b"piece 1 1 256 256\r\r"
    yield b"\r\r"
    yield b"\rpiece 1 1 256 256"
    yield b"piece 1 1\r256 256"
    yield b"piece 1 1 256 256 \r\r"
    yield b"pie\rce 1 1 256 256"
    yield from (b"at 2\r\r", b"at 2 \r\r", b"at\r2", b"\rat 2", b"check\r\r", b"check \r\r", b"\rcheck")
    yield from (b"drive 2\r\r", b"drive 2 \r\r", b"drive\r2", b"\rdrive 2")


def silent_lines():
    yield from (b"", b" ", b"\t", b" \t \t", b"#", b"#piece 1 1 256 256", b"## \x00\xff", b"# \xc3\xa9")
    # A comment begins with its very first byte.
    yield b" # piece 1 1 256 256"
    yield b"piece 1 1 256 256 # steep"
    yield b"piece 1 1 256 #256"
    yield b"piece# 1 1 256 256"
    yield from (b"#at 2", b"#check", b" #check", b"at 2 # two", b"at #2", b"at# 2", b"check # all", b"check#")
    yield from (b"#drive 2", b" #drive 2", b"drive 2 # two", b"drive #2", b"drive# 2")
    yield from (b"#change 1 1 1", b" #change 1 1 1", b"change 1 1 1 # one", b"change 1 1 #1", b"change# 1 1 1")


def unknown_commands():
    for word in (
        b"Piece", b"PIECE", b"piec", b"pieces", b"p", b"ecei", b"piece,", b"-piece", b"1", b"?",
        b"p\xc3\xade\xc3\xa7e", b"piece\xff", b"\xff", b"\xa0piece", b"piece\x00", b"\x00",
        b"piece\x0b1", b"piece\x0c", b"\xef\xbb\xbfpiece",
    ):
        yield word + b" 1 1 256 256"
    for word in (b"At", b"AT", b"a", b"t", b"ta", b"att", b"cat", b"at,", b"at2", b"at\x00", b"at\x0b", b"\xffat"):
        yield word + b" 2"
    for word in (
        b"Drive", b"DRIVE", b"drivE", b"driv", b"rive", b"d", b"drives", b"dirve", b"drive,", b"drive2", b"drive\x00",
        b"drive\x0b", b"\xffdrive",
    ):
        yield word + b" 2"
    for word in (
        b"Change", b"CHANGE", b"changE", b"chang", b"hange", b"c", b"changes", b"chagne", b"charge", b"change,",
        b"change1", b"change\x00", b"change\x0b", b"\xffchange",
    ):
        yield word + b" 1 1 1"
    for word in (
        b"Check", b"CHECK", b"checK", b"chec", b"heck", b"checks", b"check,", b"check1", b"chekc", b"check\x00",
        b"check\x0c", b"\xa0check",
    ):
        yield word
    # The command is asked before the count of words and before the numbers.
    yield b"Piece"
    yield b"pieces one two"
    yield b"piece1 1 256 256"
    yield from (b"At", b"at2", b"att x y", b"Check all", b"Drive", b"drive2", b"drives x y")
    yield from (b"Change", b"change1", b"change1 1 1", b"changes x y z")


def counts_of_words():
    yield from (b"piece", b"piece ", b"piece 1", b"piece 1 1", b"piece 1 1 256")
    yield from (b"piece 1 1 256 256 256", b"piece 1 1 256 256 256 256", b"piece 1 1 256 256 x")
    yield from (b"at", b"at ", b"at\t\r", b"at 2 3", b"at 2 2 2", b"at 2 x", b"check 2", b"check all", b"check 0 1 2")
    yield from (b"check check", b"check knots", b"at at 2")
    yield from (b"drive", b"drive ", b"drive\t\r", b"drive 2 3", b"drive 2 2 2", b"drive 2 x")
    yield from (b"drive drive 2", b"drive at 2", b"at drive 2")
    yield from (b"change", b"change ", b"change\t\r", b"change 1", b"change 1 1", b"change 1 1 1 1", b"change 1 1 1 x")
    yield from (b"change change 1 1 1", b"change 1 1 1 1 1 1", b"change knots", b"change slopes 1 1 1")
    # The count is asked before the numbers.
    yield from (b"piece x", b"piece 1.5 1 256", b"piece x 1 256 256 256", b"piece piece")
    yield from (b"at x y", b"at 2147483648 2", b"at x 2147483648 2")
    yield from (b"drive x y", b"drive 2147483648 2", b"drive x 2147483648 2")
    yield from (b"change x", b"change x y", b"change 1 2147483648", b"change x y z w", b"change 1 1 1 2147483648")


def each_number(word):
    """Good pieces with one number replaced by the word, each of the four in turn, and the word as a position.

    Then changes with the word as each of their three numbers: far from any point, or of none, so that no list changes.
    """
    good = [b"1", b"1", b"256", b"256"]
    for place in range(4):
        yield b" ".join([b"piece", *good[:place], word, *good[place + 1 :]])
    yield from (b"at " + word, b"drive " + word)
    yield from (b"change %b 9999 1" % word, b"change 4 %b 1" % word, b"change 4 1 %b" % word)


NOT_DECIMAL = (
    b"+1", b"1.0", b"--1", b"-", b"1e3", b"0x10", b"1_0", b"1-", b"-+1", b"x", b"1,000", b"0-1",
    b"\xd9\xa1", b"\xe2\x88\x921", b"1\xff", b"1\x00", b"\x0b1", b"/", b":", b"1/1", b"1;", b"\xb9",
    b"99999999999999999999x",
)
ODD_BUT_DECIMAL = (b"0", b"-0", b"00", b"-000", b"01", b"0000000001", b"-01", b"0" * 30 + b"1", b"0" * 400 + b"1")


def not_decimal():
    for word in NOT_DECIMAL:
        yield from each_number(word)


def odd_but_decimal():
    for word in ODD_BUT_DECIMAL:
        yield from each_number(word)
    yield b"piece 1 0 -0 -00"
    yield b"piece 0001 00 0000 -0000"


def ends_of_sizes():
    for number in (
        I32_MAX, I32_MAX + 1, I32_MIN, I32_MIN - 1, 2**32, 2**32 + 256, -(2**32),
        I64_MAX, I64_MAX + 1, I64_MIN, I64_MIN - 1, 2**64, 2**64 + 1, -(2**64) + 1, 2**64 + 2**32,
    ):
        yield from each_number(b"%d" % number)
    for word in (
        b"0" * 30 + b"%d" % I32_MAX, b"-" + b"0" * 30 + b"%d" % -I32_MIN,
        b"0" * 30 + b"%d" % I64_MAX, b"0" * 30 + b"%d" % (I64_MAX + 1),
        b"-" + b"0" * 380 + b"%d" % -I64_MIN, b"-" + b"0" * 380 + b"%d" % (1 - I64_MIN),
        b"99999999999999999999", b"9" * 30, b"-" + b"9" * 30, b"1" + b"0" * 29, b"7" * 400, b"-1" + b"0" * 399,
    ):
        yield from each_number(word)


def first_fault():
    yield b"piece x y z w"
    yield b"piece 1 y z w"
    yield b"piece 1 1 z w"
    yield b"piece 99999999999999999999 y 0 0"
    yield b"piece x 99999999999999999999 0 0"
    yield b"piece 1 99999999999999999999 4294967296 w"
    yield b"piece 1 1 4294967296 w"
    yield b"piece 1 1 w 4294967296"
    yield from (b"change x y z", b"change 1 y z", b"change 99999999999999999999 y 0", b"change x 4294967296 0")
    yield from (b"change 1 4294967296 z", b"change 1 y 4294967296", b"change 99999999999999999999 4294967296 0")
    # A fault of the line comes before any refusal.
    yield b"piece 0 1 256 x"
    yield b"piece 1025 1048577 0 2147483648"
    yield b"piece 0 9223372036854775808 0 0"
    yield from (b"at -4 6", b"drive -4 6")
    yield from (b"change 4 1 x", b"change -1 x 1", b"change 1 9999 2147483648", b"change 9223372036854775808 9999 1")


def long_lines():
    good = b"piece 1 1 256 256"
    # Each is followed by a short one, to see that the next line is read from its start.
    yield b"piece 1 1 256 " + b"256".rjust(LONGEST_LINE - 14, b"0")
    yield good
    yield b"piece 1 -1 -256" + b"-256".rjust(LONGEST_LINE - 15) + b"\r"
    yield good
    yield good.ljust(LONGEST_LINE + 1)
    yield good
    yield b"#".ljust(LONGEST_LINE + 1, b"=")
    yield good
    yield b"\t" * (2 * LONGEST_LINE + 1)
    yield good
    yield b" " * LONGEST_LINE + good
    yield good
    # A CR that ends the line does not count, and any other does: also where it is the last byte but one that a reader keeps.
    for line in (good.ljust(LONGEST_LINE), good.ljust(LONGEST_LINE + 1)):
        for tail in (b"\r", b"\r\r", b"\r more"):
            yield line + tail
            yield good
    yield b"#".ljust(LONGEST_LINE, b"=")
    yield b" " * LONGEST_LINE
    yield good
    # Lines that go on once a reader's room is full. The first has a CR where the longest line may have its ending. Of the others one starts in
    # the first half of a read of 65536 bytes, so that less room is left than is held.
    yield good.ljust(LONGEST_LINE) + b"\r".ljust(LONGEST_LINE + 64)
    yield good
    for _ in range(2):
        yield good.ljust(LONGEST_LINE * 3 // 2 - 1)
        yield good


def many_lines():
    """So many lines, and so many bytes, that a count or a number of reads that stops is seen."""
    yield b"\n" * 70000 + b"piece"


GROUPS = (
    ("Spaces and tabs.", blanks),
    ("Lines that end in CR LF, and CRs elsewhere.", carriage_returns),
    ("Lines that give nothing, and lines that only look so.", silent_lines),
    ("Commands that do not exist.", unknown_commands),
    ("Too few words, and too many.", counts_of_words),
    ("Numbers that are not decimal.", not_decimal),
    ("Numbers in unusual dress: leading zeros, minus zero.", odd_but_decimal),
    ("Numbers at the ends of 32 and 64 bits and past them.", ends_of_sizes),
    ("Several faults in one line: the first is named.", first_fault),
    ("Lines of 65536 bytes, and longer ones.", long_lines),
    ("A fault after many lines.", many_lines),
)
