/* Calls of the text functions: with bytes of every length up to 40 and of some far above, positions far behind them, and buffers that are
 * full or too small. */
#include "bad_callers.h"
#include "guarded.h"
#include "rules.h"
#include "tally.h"

#include <inttypes.h>
#include <stdio.h>
#include <string.h>

#define EVERY_LENGTH 40

static guarded text, more;
static arrangement where;

static void say(const char *function, size_t first, size_t second) {
    calling("%s of %zu bytes, the guard %s, with %zu and %zu", function, text.length, guarded_word(where), first, second);
}

static void bytes_as_expected(void) {
    if (!guarded_same(&text) || !guarded_same(&more))
        wrong("the bytes, or the memory around them, are not as they have to be");
}

/* ---- bytes that are only read */

/* Words, the two separators, CR, and what other libraries take for a separator or an end. */
static const uint8_t BYTES[] = {'a', ' ', '\t', '\r', 'b', 0, 255, '\n', '\v', '\f', 0x85, 0xa0};

/* Bytes of a few kinds, so that each is found and each is missed. */
static void fill(uint64_t kinds) {
    uint8_t *bytes = text.list;
    size_t i;
    for (i = 0; i < text.length; i++)
        bytes[i] = BYTES[dice(kinds)];
    guarded_keep(&text);
    guarded_allow(&text, READ_ONLY);
}

static size_t first_of(size_t from, uint8_t byte) {
    const uint8_t *bytes = text.list;
    size_t i;
    for (i = from; i < text.length; i++)
        if (bytes[i] == byte)
            return i;
    return from > text.length ? from : text.length;
}

static size_t words_from(size_t from) {
    negwafir_span word;
    size_t count = 0;
    for (word = word_from(text.list, text.length, from); word.found; word = word_from(text.list, text.length, word.end))
        count++;
    return count;
}

static void try_next_word(size_t from) {
    negwafir_span expected = word_from(text.list, text.length, from), word;
    say("negwafir_next_word", from, 0);
    word = negwafir_next_word(text.list, text.length, from);
    same_number("found", word.found, expected.found);
    same_number("the start", (int64_t)word.start, (int64_t)expected.start);
    same_number("the end", (int64_t)word.end, (int64_t)expected.end);
}

static void try_part(size_t start, size_t end) {
    size_t stop = end < text.length ? end : text.length;
    say("negwafir_part", start, end);
    same_number("the part", (int64_t)negwafir_part(text.list, text.length, start, end), start < stop ? (int64_t)(stop - start) : 0);
}

static void try_find(size_t from, uint8_t byte) {
    say("negwafir_find", from, byte);
    same_number("the position", (int64_t)negwafir_find(text.list, text.length, from, byte), (int64_t)first_of(from, byte));
}

static void try_line(void) {
    const uint8_t *bytes = text.list;
    size_t positions[] = {0, 1, text.length / 2, text.length - 1, text.length, text.length + 1, SIZE_MAX - 1, SIZE_MAX};
    size_t i, j;
    bool returns = text.length > 0 && bytes[text.length - 1] == '\r';
    say("negwafir_content", 0, 0);
    same_number("the content", (int64_t)negwafir_content(text.list, text.length), (int64_t)(text.length - returns));
    for (i = 0; i < COUNT(positions); i++) {
        size_t from = positions[i];
        for (j = 0; j < COUNT(BYTES); j++)
            try_find(from, BYTES[j]);
        try_next_word(from);
        say("negwafir_count_words", from, 0);
        same_number("the count", (int64_t)negwafir_count_words(text.list, text.length, from), (int64_t)words_from(from));
        for (j = 0; j < COUNT(positions); j++)
            try_part(from, positions[j]);
    }
    bytes_as_expected();
}

/* A line that is one byte, over and over: of CR alone, only the last is left out. */
static void try_same_bytes(size_t length, uint8_t byte) {
    guarded_lend(&text, length, 1, where);
    memset(text.list, byte, length);
    guarded_keep(&text);
    guarded_allow(&text, READ_ONLY);
    try_line();
}

static void try_lines(void) {
    size_t shape, length, i;
    uint64_t kinds;
    trying("lines of one byte over and over");
    for (i = 0; i < COUNT(BYTES); i++)
        for (length = 1; length <= 3; length++)
            try_same_bytes(length, BYTES[i]);
    trying("lines of every length");
    for (length = 0; length <= EVERY_LENGTH; length++) {
        guarded_lend(&text, length, 1, where);
        fill(1 + dice(COUNT(BYTES)));
        try_line();
    }
    trying("lines around the limits of lengths");
    for (shape = 0; shape < SHAPES; shape++)
        for (kinds = 1; kinds <= COUNT(BYTES); kinds++) {
            guarded_lend_shape(&text, shape, 1, where);
            fill(kinds);
            try_line();
        }
}

/* ---- numbers */

static void say_text(const char *function) {
    int shown = text.length < 40 ? (int)text.length : 40;
    calling("%s of %zu bytes, the guard %s, '%.*s'", function, text.length, guarded_word(where), shown,
            shown > 0 ? (const char *)text.list : "");
}

static void try_number(void) {
    negwafir_read expected = number_in(text.list, text.length, INT64_MIN, INT64_MAX), read;
    negwafir_read expected32 = number_in(text.list, text.length, INT32_MIN, INT32_MAX);
    negwafir_read32 read32;
    guarded_allow(&text, READ_ONLY);
    say_text("negwafir_whole");
    read = negwafir_whole(text.list, text.length);
    same_number("the kind", read.kind, expected.kind);
    same_number("the number", read.value, expected.value);
    say_text("negwafir_whole32");
    read32 = negwafir_whole32(text.list, text.length);
    same_number("the kind", read32.kind, expected32.kind);
    same_number("the number", read32.value, expected32.value);
    bytes_as_expected();
    met(A_READ, read.kind);
}

static const char *const TEXTS[] = {
    "", "-", "0", "-0", "-00", "7", "007", "010", "-07", "+7", "--7", "7-", "7 ", " 7", "\t7", "7\n", "7\r", "12a", "/", ":", "0x10", "1_0", "1e3",
    "00000000000000000000000000000007", "999999999999999999999x", "2147483648x", "21000000000000000000", "2147483647", "2147483648",
    "-2147483648", "-2147483649", "4294967296", "9223372036854775807", "9223372036854775808", "-9223372036854775808", "-9223372036854775809",
    "18446744073709551615", "18446744073709551616", "99999999999999999999", "184467440737095516160", "-340282366920938463463374607431768211456",
};

static void try_text(const char *bytes, size_t length) {
    guarded_lend(&text, length, 1, where);
    if (length > 0)
        memcpy(text.list, bytes, length);
    guarded_keep(&text);
    try_number();
}

/* Digits of every length: some, zeros in front of one, and some with a byte among them that may be none. */
static void try_digits(size_t length) {
    static const char some[] = "0123456789-x\0";
    char bytes[EVERY_LENGTH];
    size_t i, other = (size_t)dice(length);
    memset(bytes, '0', length);
    bytes[length - 1] = '7';
    try_text(bytes, length);
    for (i = 0; i < length; i++)
        bytes[i] = some[dice(10)];
    try_text(bytes, length);
    bytes[other] = some[dice(sizeof some)];
    try_text(bytes, length);
}

static void try_texts(void) {
    size_t i, shape;
    trying("texts");
    for (i = 0; i < COUNT(TEXTS); i++)
        try_text(TEXTS[i], strlen(TEXTS[i]));
    try_text("7", 2); /* with the 0 byte behind it */
    trying("digits of every length");
    for (i = 1; i <= EVERY_LENGTH; i++)
        try_digits(i);
    trying("digits around the limits of lengths");
    for (shape = 0; shape < SHAPES; shape++)
        for (i = 0; i < 3; i++) {
            guarded_lend_shape(&text, shape, 1, where);
            if (text.length > 0)
                memset(text.list, "09x"[i], text.length);
            guarded_keep(&text);
            try_number();
        }
}

/* ---- bytes that are written */

/* What a buffer has to hold once `length` bytes have been put behind its first `held`, and how many stand there then. */
static size_t expect_appended(size_t held, const void *bytes, size_t length) {
    size_t room = held < text.length ? text.length - held : 0;
    size_t count = length < room ? length : room;
    if (count > 0)
        memcpy((uint8_t *)guarded_expected(&text) + held, bytes, count);
    guarded_allow(&text, count > 0 ? WRITABLE : READ_ONLY);
    return held < text.length ? held + count : text.length;
}

static void appended(size_t answered, size_t expected) {
    same_number("the answer", (int64_t)answered, (int64_t)expected);
    bytes_as_expected();
}

static void try_append(size_t held) {
    size_t expected = expect_appended(held, more.list, more.length);
    say("negwafir_append", held, more.length);
    appended(negwafir_append(text.list, text.length, held, more.list, more.length), expected);
}

static void try_append_numbers(size_t held) {
    static const uint64_t numbers[] = {0, 1, 5, 9, 10, 42, 100, 1024, (uint64_t)-5, (uint64_t)-10, (uint64_t)-1048576, INT32_MAX,
                                       (uint64_t)INT32_MAX + 1, INT64_MAX, (uint64_t)INT64_MAX + 1, UINT64_MAX};
    char digits[24];
    size_t i, expected;
    for (i = 0; i < COUNT(numbers); i++) {
        int64_t whole = (int64_t)numbers[i];
        int32_t whole32 = (int32_t)whole;
        expected = expect_appended(held, digits, (size_t)sprintf(digits, "%" PRIu64, numbers[i]));
        say("negwafir_append_natural", held, i);
        appended(negwafir_append_natural(text.list, text.length, held, numbers[i]), expected);
        expected = expect_appended(held, digits, (size_t)sprintf(digits, "%" PRId64, whole));
        say("negwafir_append_whole", held, i);
        appended(negwafir_append_whole(text.list, text.length, held, whole), expected);
        expected = expect_appended(held, digits, (size_t)sprintf(digits, "%" PRId32, whole32));
        say("negwafir_append_whole32", held, i);
        appended(negwafir_append_whole32(text.list, text.length, held, whole32), expected);
    }
}

/* Bytes that differ, so that each has its place. */
static void lend_more(size_t shape) {
    uint8_t *bytes;
    size_t i;
    guarded_lend_shape(&more, shape, 1, where);
    bytes = more.list;
    for (i = 0; i < more.length; i++)
        bytes[i] = (uint8_t)(i + i / 251);
    guarded_keep(&more);
    guarded_allow(&more, READ_ONLY);
}

static void try_buffer(void) {
    size_t positions[] = {0, 1, text.length / 2, text.length - 12, text.length - 1, text.length, text.length + 1, SIZE_MAX};
    size_t i, shape;
    for (i = 0; i < COUNT(positions); i++)
        try_append_numbers(positions[i]);
    for (shape = 0; shape < SHAPES; shape++) {
        lend_more(shape);
        for (i = 0; i < COUNT(positions); i++)
            try_append(positions[i]);
    }
}

static void try_buffers(void) {
    size_t shape, length;
    trying("buffers of every length");
    for (length = 0; length <= EVERY_LENGTH; length++) {
        guarded_lend(&text, length, 1, where);
        try_buffer();
    }
    trying("buffers around the limits of lengths");
    for (shape = 0; shape < SHAPES; shape++) {
        guarded_lend_shape(&text, shape, 1, where);
        try_buffer();
    }
}

void bad_text(void) {
    guarded_map(&text);
    guarded_map(&more);
    for (where = GUARD_BEHIND; where <= GUARD_BEFORE; where++) {
        guarded_lend_shape(&more, 0, 1, where);
        try_lines();
        try_texts();
        try_buffers();
    }
}
