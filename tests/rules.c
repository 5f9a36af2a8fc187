#include "rules.h"

#include <string.h>

static negwafir_refusal refused(uint32_t number, size_t place) {
    negwafir_refusal refusal = {number, place};
    return refusal;
}

static wide step(const int32_t *list, size_t i) {
    return (wide)list[i + 1] - list[i];
}

bool is_unit(uint32_t s) {
    return s <= 8;
}

wide unit_of(uint32_t s) {
    return (wide)1 << s;
}

bool is_count(size_t n) {
    return n >= 2 && n <= 1024;
}

bool is_width(wide h) {
    return h >= 1 && h <= 1024;
}

bool is_rise(wide z) {
    return z >= -1048576 && z <= 1048576;
}

wide size_of(wide x) {
    return x < 0 ? -x : x;
}

wide rounded_down(wide n, wide d) {
    wide q = n / d;
    return q * d > n ? q - 1 : q;
}

wide nearest(wide n, wide d) {
    wide below = rounded_down(n, d), above = below + 1;
    return above * d - n <= n - below * d ? above : below;
}

/* ---- refusals */

negwafir_refusal piece_refusal(uint32_t s, wide h, wide z) {
    if (!is_unit(s))
        return refused(12, 0);
    if (!is_width(h))
        return refused(3, 0);
    return is_rise(z) ? refused(0, 0) : refused(4, 0);
}

static negwafir_refusal outline_refusal(table t) {
    if (!is_unit(t.s))
        return refused(12, 0);
    if (t.knots_length != t.values_length || t.knots_length != t.slopes_length)
        return refused(1, 0);
    return is_count(t.knots_length) ? refused(0, 0) : refused(2, 0);
}

static negwafir_refusal point_refusal(const int32_t *knots, const int32_t *values, size_t points) {
    size_t i;
    for (i = 0; i + 1 < points; i++)
        if (!is_width(step(knots, i)))
            return refused(3, i);
    for (i = 0; i + 1 < points; i++)
        if (!is_rise(step(values, i)))
            return refused(4, i);
    return refused(0, 0);
}

negwafir_refusal build_refusal(table t) {
    negwafir_refusal refusal = outline_refusal(t);
    return refusal.number ? refusal : point_refusal(t.knots, t.values, t.knots_length);
}

negwafir_refusal check_refusal(table t) {
    negwafir_refusal refusal = build_refusal(t);
    size_t i;
    if (refusal.number)
        return refusal;
    for (i = 0; i + 1 < t.knots_length; i++)
        if (verdict_of(t.s, step(t.knots, i), step(t.values, i), t.slopes[i], t.slopes[i + 1]) == NEGWAFIR_BENDS)
            return refused(5, i);
    return refused(0, 0);
}

negwafir_refusal change_refusal(table t, negwafir_change change) {
    int32_t knots[1024], values[1024];
    negwafir_refusal refusal = outline_refusal(t);
    if (refusal.number)
        return refusal;
    if (change.point >= t.knots_length)
        return refused(7, 0);
    memcpy(knots, t.knots, t.knots_length * sizeof *knots);
    memcpy(values, t.values, t.knots_length * sizeof *values);
    knots[change.point] = change.knot;
    values[change.point] = change.value;
    return point_refusal(knots, values, t.knots_length);
}

negwafir_refusal evaluation_refusal(table t, int32_t position) {
    negwafir_refusal refusal = check_refusal(t);
    if (refusal.number)
        return refusal;
    return position < t.knots[0] || position > t.knots[t.knots_length - 1] ? refused(6, 0) : refused(0, 0);
}

negwafir_refusal float_refusal(table t, int32_t position) {
    negwafir_refusal refusal = evaluation_refusal(t, position);
    size_t i;
    wide h;
    if (refusal.number)
        return refusal;
    i = piece_at(t, position);
    h = step(t.knots, i);
    return size_of(step(t.values, i)) * h * h * h > (wide)1 << 40 ? refused(8, i) : refused(0, 0);
}

/* ---- pieces */

/* Whether a + 2*half*x + square*x^2 is nowhere negative from x = 0, where it is a, to x = 1, where it is b. Its least value lies at an
 * end, or at the vertex where that is inside. */
static bool never_negative(wide Z, wide a, wide b) {
    wide half = 3 * Z - 2 * a - b;
    wide square = 3 * (a + b - 2 * Z);
    if (a < 0 || b < 0)
        return false;
    return !(0 < -half && -half < square) || a * square >= half * half;
}

uint32_t verdict_of(uint32_t s, wide h, wide z, wide m, wide n) {
    wide Z = unit_of(s) * z, a = m * h, b = n * h;
    if (z > 0)
        return never_negative(Z, a, b) ? NEGWAFIR_RISING : NEGWAFIR_BENDS;
    if (z < 0)
        return never_negative(-Z, -a, -b) ? NEGWAFIR_FALLING : NEGWAFIR_BENDS;
    return a == 0 && b == 0 ? NEGWAFIR_FLAT : NEGWAFIR_BENDS;
}

/* ---- slopes */

static bool are_opposed(wide x, wide y) {
    return (x < 0 && y > 0) || (x > 0 && y < 0);
}

/* C divides toward zero. */
static int32_t in_units(uint32_t s, wide above, wide below) {
    return (int32_t)(unit_of(s) * above / below);
}

table_end end_at(const int32_t *knots, const int32_t *values, size_t piece, size_t neighbour) {
    table_end e = {step(knots, piece), step(values, piece), step(knots, neighbour), step(values, neighbour), 0, 0};
    e.above = (2 * e.h1 + e.h2) * e.h2 * e.z1 - e.h1 * e.h1 * e.z2;
    e.below = e.h1 * e.h2 * (e.h1 + e.h2);
    return e;
}

bool is_zero_or_opposed(table_end e) {
    return e.z1 == 0 || e.above == 0 || are_opposed(e.above, e.z1);
}

bool is_beyond_the_bound(table_end e) {
    return are_opposed(e.z1, e.z2) && size_of(e.above) * e.h1 > 3 * size_of(e.z1) * e.below;
}

static int32_t end_slope(uint32_t s, table_end e) {
    if (is_zero_or_opposed(e))
        return 0;
    return is_beyond_the_bound(e) ? in_units(s, 3 * e.z1, e.h1) : in_units(s, e.above, e.below);
}

static int32_t inner_slope(uint32_t s, wide h1, wide z1, wide h2, wide z2) {
    wide above, below;
    if (z1 == 0 || z2 == 0 || (z1 < 0) != (z2 < 0))
        return 0;
    above = 3 * (h1 + h2) * size_of(z1) * size_of(z2);
    below = (h1 + 2 * h2) * h1 * size_of(z2) + (2 * h1 + h2) * h2 * size_of(z1);
    return in_units(s, z1 < 0 ? -above : above, below);
}

int32_t slope_at(uint32_t s, const int32_t *knots, const int32_t *values, size_t points, size_t point) {
    size_t left = point - 1;
    if (points == 2)
        return in_units(s, step(values, 0), step(knots, 0));
    if (point == 0)
        return end_slope(s, end_at(knots, values, 0, 1));
    if (point == points - 1)
        return end_slope(s, end_at(knots, values, left, left - 1));
    return inner_slope(s, step(knots, left), step(values, left), step(knots, point), step(values, point));
}

bool is_renewed(size_t points, size_t changed, size_t point) {
    if (point + 1 == changed || point == changed || point == changed + 1)
        return true;
    return (changed == 2 && point == 0) || (changed + 3 == points && point + 1 == points);
}

/* ---- positions */

size_t piece_at(table t, int32_t position) {
    size_t i = 0;
    while (i + 2 < t.knots_length && t.knots[i + 1] <= position)
        i++;
    return i;
}

wide denominator_on(table t, size_t i) {
    wide h = step(t.knots, i);
    return unit_of(t.s) * h * h * h;
}

wide curve_on(table t, size_t i, int32_t position) {
    wide h = step(t.knots, i), x = (wide)position - t.knots[i], rest = h - x, unit = unit_of(t.s);
    return unit * t.values[i] * (h + 2 * x) * rest * rest + unit * t.values[i + 1] * (3 * h - 2 * x) * x * x
        + (wide)t.slopes[i] * h * x * rest * rest - (wide)t.slopes[i + 1] * h * rest * x * x;
}

wide risen_on(table t, size_t i, int32_t position) {
    return curve_on(t, i, position) - t.values[i] * denominator_on(t, i);
}

int32_t value_at(table t, int32_t position) {
    size_t i = piece_at(t, position);
    return (int32_t)nearest(curve_on(t, i, position), denominator_on(t, i));
}

negwafir_told told_at(table t, int32_t position) {
    negwafir_told told = {{0, 0}, NEGWAFIR_DWELL, 0, 0, 1};
    size_t i = piece_at(t, position);
    told.left = (double)t.values[i];
    if (step(t.values, i) != 0) {
        told.kind = NEGWAFIR_MOVE;
        told.numerator = (double)(int64_t)risen_on(t, i, position);
        told.denominator = (double)(int64_t)denominator_on(t, i);
    }
    return told;
}

/* ---- text */

bool is_separator(uint8_t byte) {
    return byte == ' ' || byte == '\t';
}

negwafir_span word_from(const uint8_t *line, size_t length, size_t from) {
    negwafir_span none = {false, 0, 0}, word = {true, from, from};
    if (from >= length)
        return none;
    while (word.start < length && is_separator(line[word.start]))
        word.start++;
    word.end = word.start;
    while (word.end < length && !is_separator(line[word.end]))
        word.end++;
    return word.start < length ? word : none;
}

/* Twenty digits behind the zeros in front make at least 10^19, which fits no number here, whatever follows. */
negwafir_read number_in(const uint8_t *text, size_t length, wide least, wide most) {
    negwafir_read read = {NEGWAFIR_NOT_DECIMAL, 0};
    bool negative = length > 0 && text[0] == '-';
    size_t i, first = negative, digits = 0;
    wide n = 0;
    if (first == length)
        return read;
    for (i = first; i < length; i++) {
        if (text[i] < '0' || text[i] > '9')
            return read;
        if (digits > 0 || text[i] != '0')
            digits++;
        if (digits <= 20)
            n = 10 * n + (text[i] - '0');
    }
    n = negative ? -n : n;
    read.kind = n < least || n > most ? NEGWAFIR_TOO_LARGE : NEGWAFIR_WHOLE;
    read.value = read.kind == NEGWAFIR_WHOLE ? (int64_t)n : 0;
    return read;
}
