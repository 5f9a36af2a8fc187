/* The yardstick: the exact rules by hand in C, the same refusals in the same order, in the way that was fastest over three compilers
   together (docs/BENCHMARKS.md has what else was tried). A table without a fault is gone over with nothing noted down on the way; only
   where there is a fault the one to be named is looked for. What writes goes over the table a second time, since a refused call writes
   nothing. */
#include "reference.h"

enum { DONE, LENGTHS, COUNT, WIDTH, RISE, BEND, POSITION, POINT, SIZE, SLOPE_UNIT = 12 };
enum { NONE, RISING, FALLING, FLAT, BENDS };
enum { DWELL, MOVE };

static negwafir_refusal refusal(uint32_t number, size_t place)
{
    return (negwafir_refusal){number, place};
}

static inline bool unit_within(uint32_t s)
{
    return s <= 8;
}

/* Worked out once a call, and multiplied by: C does not say what a shift makes of a number below 0. */
static inline int64_t unit_of(uint32_t s)
{
    return INT64_C(1) << s;
}

static inline bool width_within(int64_t h)
{
    return 1 <= h && h <= 1024;
}

static inline int64_t size_of(int64_t x)
{
    return x < 0 ? -x : x;
}

static inline bool rise_within(int64_t z)
{
    return size_of(z) <= 1048576;
}

static inline int64_t step(const int32_t *list, size_t i)
{
    return (int64_t)list[i + 1] - list[i];
}

/* ---- one piece */

/* One test for all three signs: a fall is mirrored, and without a rise it leaves only slopes of 0. Compared without a sign, what is
   below 0 is above every limit. Up to the line a + b = 3Z the product of `over` and its size is not above 0, and so not above a * b;
   beyond it, it is the square. So nothing that changes from piece to piece is a branch. */
static inline bool is_monotone(int64_t unit, int64_t h, int64_t z, int64_t m, int64_t n)
{
    int64_t way = z < 0 ? -h : h, rise = unit * size_of(z), a = m * way, b = n * way;
    uint64_t most = 4 * (uint64_t)rise;
    if ((uint64_t)a > most || (uint64_t)b > most)
        return false;
    int64_t over = a + b - 3 * rise;
    return over * size_of(over) <= a * b;
}

negwafir_judgement reference_judge(uint32_t s, int64_t h, int64_t z, int32_t m, int32_t n)
{
    if (!unit_within(s))
        return (negwafir_judgement){refusal(SLOPE_UNIT, 0), NONE};
    if (!width_within(h))
        return (negwafir_judgement){refusal(WIDTH, 0), NONE};
    if (!rise_within(z))
        return (negwafir_judgement){refusal(RISE, 0), NONE};
    if (!is_monotone(unit_of(s), h, z, m, n))
        return (negwafir_judgement){refusal(DONE, 0), BENDS};
    return (negwafir_judgement){refusal(DONE, 0), z > 0 ? RISING : z < 0 ? FALLING : FLAT};
}

/* ---- a table */

static inline negwafir_refusal outline(uint32_t s, size_t knots_length, size_t values_length, size_t slopes_length)
{
    if (!unit_within(s))
        return refusal(SLOPE_UNIT, 0);
    if (values_length != knots_length || slopes_length != knots_length)
        return refusal(LENGTHS, 0);
    if (knots_length < 2 || knots_length > 1024)
        return refusal(COUNT, 0);
    return refusal(DONE, 0);
}

/* What is named of points that have a fault at piece `from` or behind it, and none before; a bend, where the limits are kept. Kept out of
   line, so that the loops before it have all registers to themselves. */
static __attribute__((noinline)) negwafir_refusal named(const int32_t *knots, const int32_t *values, size_t length, size_t from)
{
    for (size_t i = from; i + 1 < length; i++)
        if (!width_within(step(knots, i)))
            return refusal(WIDTH, i);
    for (size_t i = from; i + 1 < length; i++)
        if (!rise_within(step(values, i)))
            return refusal(RISE, i);
    return refusal(BEND, from);
}

negwafir_refusal reference_check(uint32_t s, const int32_t *knots, size_t knots_length, const int32_t *values, size_t values_length,
                                 const int32_t *slopes, size_t slopes_length)
{
    negwafir_refusal outlined = outline(s, knots_length, values_length, slopes_length);
    if (outlined.number != DONE)
        return outlined;
    const int32_t *k = knots, *v = values, *m = slopes, *last = knots + knots_length - 1;
    int64_t unit = unit_of(s), knot = *k, value = *v, slope = *m;
    while (k != last) {
        int64_t next_knot = *++k, next_value = *++v, next_slope = *++m;
        int64_t h = next_knot - knot, z = next_value - value;
        if (!width_within(h) || !rise_within(z) || !is_monotone(unit, h, z, slope, next_slope))
            return named(knots, values, knots_length, (size_t)(k - knots) - 1);
        knot = next_knot;
        value = next_value;
        slope = next_slope;
    }
    return refusal(DONE, 0);
}

/* Whether the pieces from `from` up to `end` are within the limits. The loop is never left early, so that compilers make vectors of it:
   widths are in 1 to 1024 where no width - 1 has a bit above the lowest ten, and rises where no distance to a limit is below 0. */
static inline bool within(const int32_t *knots, const int32_t *values, size_t from, size_t end)
{
    uint64_t widths = 0;
    int64_t rises = 0;
    for (size_t i = from; i < end; i++) {
        int64_t z = step(values, i);
        widths |= (uint64_t)(step(knots, i) - 1);
        rises |= (z + 1048576) | (1048576 - z);
    }
    return widths < 1024 && rises >= 0;
}

/* ---- slopes */

static inline int32_t secant_slope(int64_t unit, int64_t h, int64_t z)
{
    return (int32_t)(unit * z / h);
}

/* The end piece is h1, z1 and its neighbour h2, z2. One form for all signs: a fall is mirrored, a quotient above the bound is only found where
   the neighbour goes the other way, whose sign is not looked at therefore, and without a rise the bound is 0. There is one division, whether
   of the quotient or of the bound. */
static inline int32_t end_slope(int64_t unit, int64_t h1, int64_t z1, int64_t h2, int64_t z2)
{
    int64_t rise = size_of(z1), next = z1 < 0 ? -z2 : z2;
    int64_t above = (2 * h1 + h2) * h2 * rise - h1 * h1 * next, below = h2 * (h1 + h2);
    if (above <= 0)
        return 0;
    bool bounded = above > 3 * rise * below;
    int64_t size = unit * (bounded ? 3 * rise : above) / (bounded ? h1 : h1 * below);
    return (int32_t)(z1 < 0 ? -size : size);
}

static inline int32_t inner_slope(int64_t unit, int64_t h1, int64_t z1, int64_t h2, int64_t z2)
{
    if (z1 * z2 <= 0)
        return 0;
    /* Both signs at once: above is positive, and below has the sign of the rises, so that the division rounds toward zero. */
    return (int32_t)(3 * unit * (h1 + h2) * z1 * z2 / ((h1 + 2 * h2) * h1 * z2 + (2 * h1 + h2) * h2 * z1));
}

static inline int32_t slope(int64_t unit, const int32_t *knots, const int32_t *values, size_t length, size_t i)
{
    if (length == 2)
        return secant_slope(unit, step(knots, 0), step(values, 0));
    if (i == 0)
        return end_slope(unit, step(knots, 0), step(values, 0), step(knots, 1), step(values, 1));
    if (i + 1 == length)
        return end_slope(unit, step(knots, i - 1), step(values, i - 1), step(knots, i - 2), step(values, i - 2));
    return inner_slope(unit, step(knots, i - 1), step(values, i - 1), step(knots, i), step(values, i));
}

negwafir_refusal reference_build(uint32_t s, const int32_t *knots, size_t knots_length, const int32_t *values, size_t values_length,
                                 int32_t *slopes, size_t slopes_length)
{
    negwafir_refusal outlined = outline(s, knots_length, values_length, slopes_length);
    if (outlined.number != DONE)
        return outlined;
    if (!within(knots, values, 0, knots_length - 1))
        return named(knots, values, knots_length, 0);
    size_t last = knots_length - 1;
    int64_t unit = unit_of(s), h1 = step(knots, 0), z1 = step(values, 0);
    if (last == 1) {
        slopes[0] = slopes[1] = secant_slope(unit, h1, z1);
        return refusal(DONE, 0);
    }
    slopes[0] = end_slope(unit, h1, z1, step(knots, 1), step(values, 1));
    for (size_t i = 1; i < last; i++) {
        int64_t h2 = step(knots, i), z2 = step(values, i);
        slopes[i] = inner_slope(unit, h1, z1, h2, z2);
        h1 = h2;
        z1 = z2;
    }
    slopes[last] = end_slope(unit, h1, z1, step(knots, last - 2), step(values, last - 2));
    return refusal(DONE, 0);
}

/* One entry of a list as it would be with `now` at place k. */
static inline int64_t entry(const int32_t *list, size_t i, size_t k, int32_t now)
{
    return i == k ? now : list[i];
}

/* Whether the points would be within the limits with the change: the pieces away from it, and the two beside it. */
static inline bool within_after(const int32_t *knots, const int32_t *values, size_t length, negwafir_change change)
{
    size_t k = change.point;
    if (!within(knots, values, 0, k == 0 ? 0 : k - 1) || !within(knots, values, k + 1, length - 1))
        return false;
    if (k > 0 && !(width_within((int64_t)change.knot - knots[k - 1]) && rise_within((int64_t)change.value - values[k - 1])))
        return false;
    return k + 1 == length || (width_within((int64_t)knots[k + 1] - change.knot) && rise_within((int64_t)values[k + 1] - change.value));
}

static __attribute__((noinline)) negwafir_refusal named_after(const int32_t *knots, const int32_t *values, size_t length, negwafir_change change)
{
    size_t k = change.point;
    for (size_t i = 0; i + 1 < length; i++)
        if (!width_within(entry(knots, i + 1, k, change.knot) - entry(knots, i, k, change.knot)))
            return refusal(WIDTH, i);
    for (size_t i = 0; i + 1 < length; i++)
        if (!rise_within(entry(values, i + 1, k, change.value) - entry(values, i, k, change.value)))
            return refusal(RISE, i);
    return refusal(DONE, 0);
}

negwafir_refusal reference_change_point(uint32_t s, int32_t *knots, size_t knots_length, int32_t *values, size_t values_length,
                                        int32_t *slopes, size_t slopes_length, negwafir_change change)
{
    negwafir_refusal outlined = outline(s, knots_length, values_length, slopes_length);
    if (outlined.number != DONE)
        return outlined;
    size_t k = change.point;
    if (k >= knots_length)
        return refusal(POINT, 0);
    if (!within_after(knots, values, knots_length, change))
        return named_after(knots, values, knots_length, change);
    knots[k] = change.knot;
    values[k] = change.value;
    /* The third point from an end is one of those that the end's slope is made of, so that from there on all are renewed. */
    size_t end = k + 3 < knots_length ? k + 2 : knots_length;
    int64_t unit = unit_of(s);
    for (size_t i = k < 3 ? 0 : k - 1; i < end; i++)
        slopes[i] = slope(unit, knots, values, knots_length, i);
    return refusal(DONE, 0);
}

/* ---- at a position */

/* The piece of a position between the first and the last knot of a table that is accepted: the last that starts at or before it. */
static inline size_t piece_of(const int32_t *knots, size_t length, int32_t position)
{
    size_t piece = 0;
    for (size_t left = length - 1; left > 1;) {
        size_t half = left / 2;
        piece = knots[piece + half] <= position ? piece + half : piece;
        left -= half;
    }
    return piece;
}

negwafir_place reference_locate(uint32_t s, const int32_t *knots, size_t knots_length, const int32_t *values, size_t values_length,
                                const int32_t *slopes, size_t slopes_length, int32_t position)
{
    negwafir_refusal checked = reference_check(s, knots, knots_length, values, values_length, slopes, slopes_length);
    if (checked.number != DONE)
        return (negwafir_place){checked, 0};
    if (position < knots[0] || position > knots[knots_length - 1])
        return (negwafir_place){refusal(POSITION, 0), 0};
    return (negwafir_place){checked, piece_of(knots, knots_length, position)};
}

negwafir_value reference_evaluate(uint32_t s, const int32_t *knots, size_t knots_length, const int32_t *values, size_t values_length,
                                  const int32_t *slopes, size_t slopes_length, int32_t position)
{
    negwafir_place at = reference_locate(s, knots, knots_length, values, values_length, slopes, slopes_length, position);
    if (at.refusal.number != DONE)
        return (negwafir_value){at.refusal, 0};
    size_t i = at.piece;
    int64_t unit = unit_of(s), h = step(knots, i), rise = unit * step(values, i), t = (int64_t)position - knots[i];
    int64_t a = slopes[i] * h, b = slopes[i + 1] * h;
    int64_t above = (((a + b - 2 * rise) * t + (3 * rise - 2 * a - b) * h) * t + a * (h * h)) * t;
    /* Of an odd `below` the half is rounded down: what is left of a division is a whole number, and none lies between the two. */
    int64_t below = unit * (h * h * h), with_half = above + (below >> 1);
    int64_t risen = with_half / below - (with_half % below < 0);
    return (negwafir_value){at.refusal, (int32_t)(values[i] + risen)};
}

negwafir_told reference_float_answer(uint32_t s, const int32_t *knots, size_t knots_length, const int32_t *values, size_t values_length,
                                     const int32_t *slopes, size_t slopes_length, int32_t position)
{
    negwafir_place at = reference_locate(s, knots, knots_length, values, values_length, slopes, slopes_length, position);
    if (at.refusal.number != DONE)
        return (negwafir_told){at.refusal, DWELL, 0.0, 0.0, 1.0};
    size_t i = at.piece;
    int64_t h = step(knots, i), z = step(values, i), cube = h * h * h;
    if (z * cube > INT64_C(1099511627776) || z * cube < INT64_C(-1099511627776))
        return (negwafir_told){refusal(SIZE, i), DWELL, 0.0, 0.0, 1.0};
    if (z == 0)
        return (negwafir_told){at.refusal, DWELL, values[i], 0.0, 1.0};
    int64_t unit = unit_of(s), rise = unit * z, a = slopes[i] * h, b = slopes[i + 1] * h;
    double t = (double)((int64_t)position - knots[i]), width = (double)h;
    double above = (((double)(a + b - 2 * rise) * t + (double)(3 * rise - 2 * a - b) * width) * t + (double)a * (width * width)) * t;
    return (negwafir_told){at.refusal, MOVE, values[i], above + 0.0, (double)(unit * cube)};
}
