/* Calls without a list: with the most extreme numbers, those on both sides of each limit, every one that may be a width or a number of
 * points, and others at random. */
#include "bad_callers.h"
#include "rules.h"
#include "tally.h"

#include <inttypes.h>

/* 65538 would be 2 in 16 bits, and 2^32 + 2 in 32 bits. */
static const int64_t NUMBERS[] = {
    INT64_MIN, INT64_MIN + 1, -4294967296, INT32_MIN, -1048577, -1048576, -1048575, -65537, -1025, -700, -14, -3, -2, -1,
    0, 1, 2, 3, 7, 10, 100, 512, 1023, 1024, 1025, 65538, 1048575, 1048576, 1048577, INT32_MAX,
    4294967296, 4294967297, 4294967298, INT64_MAX - 1, INT64_MAX,
};

static const int32_t SLOPES[] = {
    INT32_MIN, -268435456, -268435455, -1025, -1024, -769, -768, -256, -1, 0, 1, 255, 256, 384, 768, 769, 1024, 1025, 268435456, INT32_MAX,
};

static void try_judge(uint32_t s, int64_t h, int64_t z, int32_t m, int32_t n) {
    negwafir_refusal refusal = piece_refusal(s, h, z);
    negwafir_judgement judgement;
    calling("negwafir_judge of %" PRIu32 ", %" PRId64 ", %" PRId64 ", %" PRId32 ", %" PRId32, s, h, z, m, n);
    judgement = negwafir_judge(s, h, z, m, n);
    same_refusal(judgement.refusal, refusal);
    same_number("the verdict", judgement.verdict, refusal.number ? NEGWAFIR_NONE : verdict_of(s, h, z, m, n));
    met(A_VERDICT, judgement.verdict);
}

/* Every slope with itself, over the units in turn; and at unit 8, unless the piece is refused, whatever its slopes are, every slope with every
 * other. */
static void try_slopes(int64_t h, int64_t z) {
    size_t m, n, others = is_width(h) && is_rise(z) ? COUNT(SLOPES) : 0;
    for (m = 0; m < COUNT(SLOPES); m++) {
        try_judge((uint32_t)(m % 9), h, z, SLOPES[m], SLOPES[m]);
        for (n = 0; n < others; n++)
            try_judge(8, h, z, SLOPES[m], SLOPES[n]);
    }
}

static void try_pieces(void) {
    size_t h, z;
    for (h = 0; h < COUNT(NUMBERS); h++)
        for (z = 0; z < COUNT(NUMBERS); z++)
            try_slopes(NUMBERS[h], NUMBERS[z]);
}

/* The tip of the accepted region and what lies beside it, a flat piece whose slopes cancel, and one that doubles take for monotone. */
static void try_known_pieces(void) {
    static const struct {
        uint32_t s;
        int64_t h, z;
        int32_t m, n;
        uint32_t verdict;
    } pieces[] = {
        {8, 1, 1, 1024, 256, NEGWAFIR_RISING},   {8, 1, 1, 256, 1024, NEGWAFIR_RISING},      {8, 1, 1, 1025, 256, NEGWAFIR_BENDS},
        {8, 1, 1, 1024, 255, NEGWAFIR_BENDS},    {8, 1, 1, 1024, 257, NEGWAFIR_BENDS},       {8, 1, -1, -1024, -256, NEGWAFIR_FALLING},
        {8, 1, -1, -1025, -256, NEGWAFIR_BENDS}, {8, 1, 0, 1, -1, NEGWAFIR_BENDS},           {8, 1, 0, 0, 0, NEGWAFIR_FLAT},
        {8, 1, 1042998, 801022472, 801022456, NEGWAFIR_BENDS},
        {7, 1, 1, 512, 128, NEGWAFIR_RISING},    {7, 1, 1, 513, 128, NEGWAFIR_BENDS},        {7, 1, 1, 1024, 256, NEGWAFIR_BENDS},
        {4, 1, -1, -64, -16, NEGWAFIR_FALLING},  {4, 1, -1, -64, -15, NEGWAFIR_BENDS},       {1, 1, 1, 6, 6, NEGWAFIR_RISING},
        {0, 1, 1, 3, 3, NEGWAFIR_RISING},        {0, 1, 1, 4, 1, NEGWAFIR_RISING},           {0, 1, 1, 4, 0, NEGWAFIR_BENDS},
        {0, 1, 1, 3, 4, NEGWAFIR_BENDS},         {0, 1, -1, -4, -1, NEGWAFIR_FALLING},       {0, 1, 0, 1, -1, NEGWAFIR_BENDS},
    };
    size_t i;
    for (i = 0; i < COUNT(pieces); i++) {
        try_judge(pieces[i].s, pieces[i].h, pieces[i].z, pieces[i].m, pieces[i].n);
        same_number("the verdict of rules.c", verdict_of(pieces[i].s, pieces[i].h, pieces[i].z, pieces[i].m, pieces[i].n), pieces[i].verdict);
    }
}

static void try_unit(uint32_t s) {
    calling("negwafir_unit_within of %" PRIu32, s);
    same_number("the answer", negwafir_unit_within(s), is_unit(s));
}

/* With pieces that would be taken, and with such as would be refused by 3, by 4 or by both. */
static void try_refused_unit(uint32_t s) {
    static const int64_t widths[] = {1, 1024, 0, INT64_MAX}, rises[] = {0, 1, -1048576, 1048577, INT64_MIN};
    size_t h, z;
    try_unit(s);
    for (h = 0; h < COUNT(widths); h++)
        for (z = 0; z < COUNT(rises); z++)
            try_judge(s, widths[h], rises[z], 0, 0);
}

/* A piece of some width whose slopes lie around the border of the accepted region, where its ellipse is. */
static void try_border(void) {
    uint32_t s = some_unit();
    int64_t h = 1 + (int64_t)dice(1024), z = 1 + (int64_t)dice(1048576);
    int64_t three = 3 * (int64_t)unit_of(s) * z / h;
    int64_t m = (int64_t)dice((uint64_t)(4 * three / 3 + 2)), n = three - (int64_t)dice(3) + 1;
    if (dice(2) == 0)
        n = (int64_t)dice((uint64_t)(4 * three / 3 + 2));
    try_judge(s, h, z, (int32_t)m, (int32_t)n);
    try_judge(s, h, -z, (int32_t)-m, (int32_t)-n);
}

static void try_limits(int64_t x) {
    try_unit((uint32_t)x);
    calling("negwafir_count_within of %" PRIu64, (uint64_t)x);
    same_number("the answer", negwafir_count_within((size_t)x), is_count((size_t)x));
    calling("negwafir_width_within of %" PRId64, x);
    same_number("the answer", negwafir_width_within(x), is_width(x));
    calling("negwafir_rise_within of %" PRId64, x);
    same_number("the answer", negwafir_rise_within(x), is_rise(x));
}

static void try_two(int64_t x, int64_t y) {
    calling("negwafir_floor_div of %" PRId64 ", %" PRId64, x, y);
    same_number("the quotient", negwafir_floor_div(x, y), y > 0 ? (int64_t)rounded_down(x, y) : 0);
    calling("negwafir_nearest_div of %" PRId64 ", %" PRId64, x, y);
    same_number("the nearest quotient", negwafir_nearest_div(x, y), y > 0 ? (int64_t)nearest(x, y) : 0);
    if (x == (int32_t)x && y == (int32_t)y) {
        calling("negwafir_difference of %" PRId64 ", %" PRId64, x, y);
        same_number("the difference", negwafir_difference((int32_t)x, (int32_t)y), y - x);
    }
}

static void try_between(int64_t low, int64_t x, int64_t high) {
    calling("negwafir_between of %" PRId64 ", %" PRId64 ", %" PRId64, low, x, high);
    same_number("the answer", negwafir_between(low, x, high), low <= x && x <= high);
}

/* A number of any size, on either side of 0. */
static int64_t some_number(void) {
    uint64_t bits = 1 + dice(63);
    int64_t n = (int64_t)(dice(UINT64_MAX) >> (64 - bits));
    return dice(2) == 0 ? n : -n;
}

static void try_some_numbers(void) {
    int64_t x = some_number(), y = some_number();
    try_limits(x);
    try_two(x, y);
    try_between(y, x, some_number());
}

void bad_numbers(void) {
    size_t i, j, k;
    trying("pieces whose verdict is known");
    try_known_pieces();
    trying("pieces of a unit that is refused");
    for (i = 0; i < REFUSED_UNITS; i++)
        try_refused_unit(refused_units[i]);
    trying("pieces of extreme numbers");
    try_pieces();
    trying("pieces at the border");
    for (i = 0; i < 4000; i++)
        try_border();
    trying("some numbers");
    for (i = 0; i < 4000; i++)
        try_some_numbers();
    trying("every number up to the most points");
    for (i = 0; i <= 1026; i++)
        try_limits((int64_t)i);
    trying("extreme numbers");
    for (i = 0; i < COUNT(NUMBERS); i++)
        try_limits(NUMBERS[i]);
    trying("extreme numbers with others");
    for (i = 0; i < COUNT(NUMBERS); i++)
        for (j = 0; j < COUNT(NUMBERS); j++) {
            try_two(NUMBERS[i], NUMBERS[j]);
            for (k = 0; k < COUNT(NUMBERS); k++)
                try_between(NUMBERS[i], NUMBERS[j], NUMBERS[k]);
        }
}
