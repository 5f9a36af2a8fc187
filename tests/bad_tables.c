/* Calls with lists of some lengths, all combinations of them, and with tables of every length that are good, extreme or faulty in places. */
#include "bad_callers.h"
#include "guarded.h"
#include "rules.h"
#include "tally.h"

#include <inttypes.h>
#include <stdio.h>
#include <string.h>

static uint32_t unit; /* the table's s, taken or refused */
static guarded knots, values, slopes;
static arrangement where;
static const char *what; /* what the lists hold */

/* A table, as every call takes it. */
#define LISTS unit, knots.list, knots.length, values.list, values.length, slopes.list, slopes.length

static table lists(void) {
    table t = {unit, knots.list, values.list, slopes.list, knots.length, values.length, slopes.length};
    return t;
}

/* What the call that follows may do with each list. Where the unit is refused no list is needed. */
static void allow(permission may_knots, permission may_values, permission may_slopes) {
    bool needed = is_unit(unit);
    guarded_allow(&knots, needed ? may_knots : UNTOUCHED);
    guarded_allow(&values, needed ? may_values : UNTOUCHED);
    guarded_allow(&slopes, needed ? may_slopes : UNTOUCHED);
}

/* ---- one call: what it answers, and what it leaves in each list and around it */

static void say(const char *function, const char *given) {
    calling("%s of unit %" PRIu32 " and %zu, %zu and %zu entries, %s, the guard %s%s", function, unit, knots.length, values.length,
            slopes.length, what, guarded_word(where), given);
}

static void say_at(const char *function, int32_t position) {
    char given[64];
    snprintf(given, sizeof given, ", at %" PRId32, position);
    say(function, given);
}

static void say_change(const char *function, negwafir_change change) {
    char given[96];
    snprintf(given, sizeof given, ", point %zu to %" PRId32 ", %" PRId32, change.point, change.knot, change.value);
    say(function, given);
}

/* Where the unit is refused none of them could be touched, and they are left so for the call that follows. */
static void lists_as_expected(void) {
    if (!is_unit(unit))
        return;
    if (!guarded_same(&knots))
        wrong("the knots, or the memory around them, are not as they have to be");
    if (!guarded_same(&values))
        wrong("the values, or the memory around them, are not as they have to be");
    if (!guarded_same(&slopes))
        wrong("the slopes, or the memory around them, are not as they have to be");
}

static void expect_slope(size_t i) {
    ((int32_t *)guarded_expected(&slopes))[i] = slope_at(unit, guarded_expected(&knots), guarded_expected(&values), slopes.length, i);
}

static void try_points(void) {
    negwafir_refusal expected = build_refusal(lists());
    say("negwafir_points", "");
    allow(READ_ONLY, READ_ONLY, UNTOUCHED);
    same_refusal(negwafir_points(LISTS), expected);
    lists_as_expected();
}

static void try_check(void) {
    say("negwafir_check", "");
    allow(READ_ONLY, READ_ONLY, READ_ONLY);
    same_refusal(negwafir_check(LISTS), check_refusal(lists()));
    lists_as_expected();
}

/* What is built is accepted, whatever the points are. */
static void try_build(void) {
    negwafir_refusal expected = build_refusal(lists());
    size_t i;
    for (i = 0; expected.number == 0 && i < slopes.length; i++)
        expect_slope(i);
    say("negwafir_build", "");
    allow(READ_ONLY, READ_ONLY, expected.number ? UNTOUCHED : WRITABLE);
    same_refusal(negwafir_build(LISTS), expected);
    lists_as_expected();
    if (expected.number == 0)
        same_number("the refusal of what is built", check_refusal(lists()).number, 0);
}

static void expect_change(negwafir_change change) {
    size_t i;
    ((int32_t *)guarded_expected(&knots))[change.point] = change.knot;
    ((int32_t *)guarded_expected(&values))[change.point] = change.value;
    for (i = 0; i < slopes.length; i++)
        if (is_renewed(slopes.length, change.point, i))
            expect_slope(i);
}

static void try_change(negwafir_change change) {
    negwafir_refusal expected = change_refusal(lists(), change);
    say_change("negwafir_changed_points", change);
    allow(READ_ONLY, READ_ONLY, UNTOUCHED);
    same_refusal(negwafir_changed_points(LISTS, change), expected);
    lists_as_expected();
    if (expected.number == 0)
        expect_change(change);
    say_change("negwafir_change_point", change);
    if (expected.number == 0)
        allow(WRITABLE, WRITABLE, WRITABLE);
    else
        allow(READ_ONLY, READ_ONLY, UNTOUCHED);
    same_refusal(negwafir_change_point(LISTS, change), expected);
    lists_as_expected();
}

static void try_evaluate(int32_t position) {
    negwafir_refusal expected = evaluation_refusal(lists(), position);
    negwafir_value at;
    say_at("negwafir_evaluate", position);
    allow(READ_ONLY, READ_ONLY, READ_ONLY);
    at = negwafir_evaluate(LISTS, position);
    same_refusal(at.refusal, expected);
    same_number("the value", at.value, expected.number ? 0 : value_at(lists(), position));
    lists_as_expected();
    if (expected.number == 0)
        met(A_UNIT, unit);
}

static void try_locate(int32_t position) {
    negwafir_refusal expected = evaluation_refusal(lists(), position);
    negwafir_place place;
    say_at("negwafir_locate", position);
    allow(READ_ONLY, READ_ONLY, READ_ONLY);
    place = negwafir_locate(LISTS, position);
    same_refusal(place.refusal, expected);
    same_number("the piece", (int64_t)place.piece, expected.number ? 0 : (int64_t)piece_at(lists(), position));
    lists_as_expected();
}

static void try_float_answer(int32_t position) {
    static const negwafir_told resting = {{0, 0}, NEGWAFIR_DWELL, 0, 0, 1};
    negwafir_refusal refusal = float_refusal(lists(), position);
    negwafir_told expected = refusal.number ? resting : told_at(lists(), position);
    negwafir_told told;
    say_at("negwafir_float_answer", position);
    allow(READ_ONLY, READ_ONLY, READ_ONLY);
    told = negwafir_float_answer(LISTS, position);
    same_refusal(told.refusal, refusal);
    same_number("the kind", told.kind, expected.kind);
    same_float("the left value", told.left, expected.left);
    same_float("the numerator", told.numerator, expected.numerator);
    same_float("the denominator", told.denominator, expected.denominator);
    lists_as_expected();
    met(A_TOLD, told.kind);
}

static void try_at(int32_t position) {
    try_evaluate(position);
    try_locate(position);
    try_float_answer(position);
}

/* ---- answers that are known, to which rules.c is held too; doubles get some of them wrong */

static void lend(size_t points) {
    guarded_lend(&knots, points, sizeof(int32_t), where);
    guarded_lend(&values, points, sizeof(int32_t), where);
    guarded_lend(&slopes, points, sizeof(int32_t), where);
}

static void put(guarded *g, const int32_t *entries) {
    memcpy(g->list, entries, g->length * sizeof *entries);
    guarded_keep(g);
}

/* A slope at the table's unit, by what it is at unit 8: cut toward zero, as C divides. No choice in the rules depends on the unit. */
static int32_t cut(int32_t slope) {
    return slope / (256 >> unit);
}

/* By what they are at unit 8. They have been held to rules.c by now. */
static void same_slopes(const int32_t *known) {
    const int32_t *list = slopes.list;
    size_t i;
    for (i = 0; i < slopes.length; i++)
        same_number("a slope by rules.c", list[i], cut(known[i]));
}

/* At some units by themselves, so that `cut` is held to them. */
static void try_known_units(void) {
    static const struct {
        uint32_t unit;
        int32_t slopes[3];
    } units[] = {
        {8, {298, 177, 42}}, {7, {149, 88, 21}}, {4, {18, 11, 2}}, {1, {2, 1, 0}}, {0, {1, 0, 0}},
    };
    size_t i, j;
    for (i = 0; i < COUNT(units); i++) {
        unit = units[i].unit;
        lend(3);
        put(&knots, (int32_t[]){0, 1, 3});
        put(&values, (int32_t[]){0, 1, 2});
        try_build();
        for (j = 0; j < 3; j++)
            same_number("a slope by rules.c", ((int32_t *)slopes.list)[j], units[i].slopes[j]);
    }
}

static void try_known_slopes(void) {
    static const struct {
        size_t points;
        int32_t knots[4], values[4], slopes[4];
    } tables[] = {
        {2, {0, 1}, {0, 1}, {256, 256}},
        {2, {0, 3}, {0, -10}, {-853, -853}},
        {3, {0, 1, 2}, {0, 1, 4}, {0, 384, 1024}},
        {3, {0, 1, 3}, {0, 1, 2}, {298, 177, 42}},
        {3, {0, 1, 3}, {0, -1, -2}, {-298, -177, -42}},
        {3, {0, 2, 12}, {0, 21, 72}, {2918, 1904, 153}},
        {4, {0, 1, 2, 3}, {0, 1, 4, 7}, {0, 384, 768, 768}},
        {4, {0, 1, 2, 3}, {0, 1, 4, 3}, {0, 384, 0, -768}},
    };
    size_t i;
    for (i = 0; i < COUNT(tables); i++) {
        lend(tables[i].points);
        put(&knots, tables[i].knots);
        put(&values, tables[i].values);
        try_build();
        same_slopes(tables[i].slopes);
    }
}

static void try_three_points(const int32_t h[2], const int32_t z[2], size_t point, int32_t slope) {
    lend(3);
    put(&knots, (int32_t[]){0, h[0], h[0] + h[1]});
    put(&values, (int32_t[]){0, z[0], z[0] + z[1]});
    try_build();
    same_number("the end's slope by rules.c", slope_at(unit, knots.list, values.list, 3, point), cut(slope));
}

/* By the end piece h1, z1 and its neighbour h2, z2: at the first point of three, and the other way round at the last. */
static void try_known_ends(void) {
    static const struct {
        int32_t h1, z1, h2, z2, slope;
    } ends[] = {
        {1, -2, 2, -2, -597}, /* toward zero, and with the widths in their order */
        {2, -1, 3, -2, -110}, /* not from two secants that are rounded */
        {2, 2, 3, 3, 256}, /* in doubles a little less */
        {1, 1, 1, 3, 0}, /* zero */
        {1, 1, 1, 4, 0}, /* opposed */
        {1, 0, 1, -1, 0}, /* level */
        {1, 1, 1, 0, 384}, /* beside a level piece */
        {1, -1, 1, 1, -512}, /* opposite signs, twice the secant */
        {1, 1, 1, -2, 640}, /* still below the bound */
        {1, 1, 1, -3, 768}, /* at it */
        {1, 1, 1, -4, 768}, /* beyond it, though rounded to whole numbers both are 3 */
        {2, -1, 1, 2, -384}, /* beyond it, which is no whole number */
        {3, -2, 1, 2, -512}, /* beyond it, which is not three times the rounded secant */
        {1024, 1, 1024, 1, 0}, /* a quarter, rounded */
        {1, 1048576, 1, -1048576, 536870912}, /* the steepest */
        {1, 349525, 1, -1048576, 268435200}, /* the highest rise that is still beyond the bound */
        {1024, 1048576, 1024, -1048576, 524288}, /* the largest products */
    };
    size_t i;
    for (i = 0; i < COUNT(ends); i++) {
        try_three_points((int32_t[]){ends[i].h1, ends[i].h2}, (int32_t[]){ends[i].z1, ends[i].z2}, 0, ends[i].slope);
        try_three_points((int32_t[]){ends[i].h2, ends[i].h1}, (int32_t[]){ends[i].z2, ends[i].z1}, 2, ends[i].slope);
    }
}

/* Of tables that were built, and are as built again. */
static void try_known_changes(void) {
    static const struct {
        size_t points;
        int32_t values[4];
        negwafir_change change;
        int32_t slopes[4];
    } changes[] = {
        {3, {0, 0, 1}, {0, 0, 1}, {-512, 0, 512}},
        {4, {0, 1, 1, 1}, {2, 2, 2}, {256, 256, 0, -512}},
        {4, {0, 1, 4, 7}, {0, 0, -2}, {768, 768, 768, 768}},
    };
    size_t i;
    for (i = 0; i < COUNT(changes); i++) {
        lend(changes[i].points);
        put(&knots, (int32_t[]){0, 1, 2, 3});
        put(&values, changes[i].values);
        try_build();
        try_change(changes[i].change);
        same_slopes(changes[i].slopes);
    }
}

static void lend_piece(int32_t h, int32_t z, int32_t m, int32_t n) {
    lend(2);
    put(&knots, (int32_t[]){0, h});
    put(&values, (int32_t[]){0, z});
    put(&slopes, (int32_t[]){m, n});
}

static void try_known_values(void) {
    static const struct {
        uint32_t unit;
        int32_t h, z, m, n, position, value;
    } values_at[] = {
        {8, 1018, 927894, 7232, 669331, 971, 810401}, /* less than a half above, and in doubles a half */
        {0, 3, 25, 0, 0, 1, 6}, /* 175/27: a half of the denominator is no whole number, and 13 of 27 is below it */
        {0, 3, -25, 0, 0, 1, -6}, /* -175/27 */
        {0, 3, -10, -3, -3, 2, -7},
        {0, 2, 1, 0, 0, 1, 1}, /* a half going up */
        {0, 2, -1, 0, 0, 1, 0},
        {3, 2, 1, 0, 2, 1, 0}, /* 7/16 */
        {3, 2, 1, 2, 0, 1, 1}, /* 9/16 */
    };
    size_t i;
    for (i = 0; i < COUNT(values_at); i++) {
        unit = values_at[i].unit;
        lend_piece(values_at[i].h, values_at[i].z, values_at[i].m, values_at[i].n);
        try_at(values_at[i].position);
        same_number("the value by rules.c", value_at(lists(), values_at[i].position), values_at[i].value);
    }
}

/* The limit of the float answer is the same at every unit; the denominator is not. */
static void try_known_sizes(void) {
    for (unit = 0; unit <= 8; unit++) {
        lend_piece(1024, 1025, 0, 0);
        try_float_answer(512);
        same_number("the refusal by rules.c", float_refusal(lists(), 512).number, NEGWAFIR_SIZE);
        lend_piece(1024, -1024, 0, 0);
        try_float_answer(512);
        same_float("the denominator by rules.c", told_at(lists(), 512).denominator, 1073741824.0 * (1 << unit));
        same_float("the numerator by rules.c", told_at(lists(), 512).numerator, -549755813888.0 * (1 << unit));
    }
}

static void try_known_bends(void) {
    static const struct {
        uint32_t unit;
        int32_t h, z, m, n;
    } bends[] = {
        {8, 1, 1042998, 801022472, 801022456}, {8, 1, 0, INT32_MIN, 0}, {7, 1, 1, 1024, 256},
        {0, 1, 0, INT32_MIN, 0}, {0, 1, 1, 4, 0}, {0, 1, -1, -3, -4},
    };
    size_t i;
    for (i = 0; i < COUNT(bends); i++) {
        unit = bends[i].unit;
        lend_piece(bends[i].h, bends[i].z, bends[i].m, bends[i].n);
        try_check();
        try_at(0);
        same_number("the refusal by rules.c", check_refusal(lists()).number, NEGWAFIR_BEND);
    }
}

/* ---- lengths: every combination of them over the three lists */

static const int32_t EXTREMES[] = {
    INT32_MIN, INT32_MIN + 1, -1048577, -1048576, -1025, -1024, -1, 0, 1, 1023, 1024, 1025, 1048575, 1048576, 1048577, INT32_MAX - 1, INT32_MAX,
};

static int32_t extreme(void) {
    return EXTREMES[dice(COUNT(EXTREMES))];
}

/* One after the other: in an initializer the compiler would choose which is thrown first. */
static negwafir_change extreme_change(size_t point) {
    negwafir_change change = {point, 0, 0};
    change.knot = extreme();
    change.value = extreme();
    return change;
}

static void fill(guarded *g, bool good, int32_t step, int32_t turn) {
    int32_t *list = g->list;
    size_t i;
    for (i = 0; i < g->length; i++)
        list[i] = good ? (int32_t)i * step + (i % 3 == 0 ? turn : 0) : extreme();
    guarded_keep(g);
}

static void try_all(void) {
    negwafir_change first = extreme_change(0), far = {SIZE_MAX, 0, 0}, last = {knots.length - 1, 3 * (int32_t)knots.length - 2, -5};
    try_points();
    try_check();
    try_at(6);
    try_at(extreme());
    try_change(first);
    try_change(far);
    try_change(last);
    try_build();
    try_at(6);
}

/* Every call with a unit that is refused, whatever the lists are. The table is what it was then, and can be read. */
static void try_all_refused(uint32_t refused) {
    uint32_t taken = unit;
    unit = refused;
    try_all();
    unit = taken;
    allow(READ_ONLY, READ_ONLY, READ_ONLY);
}

/* Every combination also with a unit that is refused: once, as what the lists hold makes no difference then. */
static void try_lengths(bool good) {
    size_t k, v, s;
    what = good ? "a good table" : "extreme numbers";
    for (k = 0; k < SHAPES; k++)
        for (v = 0; v < SHAPES; v++)
            for (s = 0; s < SHAPES; s++) {
                guarded_lend_shape(&knots, k, sizeof(int32_t), where);
                guarded_lend_shape(&values, v, sizeof(int32_t), where);
                guarded_lend_shape(&slopes, s, sizeof(int32_t), where);
                fill(&knots, good, 3, 0);
                fill(&values, good, 1, 5);
                fill(&slopes, good, 0, 0);
                if (good)
                    try_all_refused(refused_units[(k + 2 * v + 4 * s) % REFUSED_UNITS]);
                unit = (uint32_t)((k + v + s) % 9);
                try_all();
            }
}

/* Lists that are not there, lists of unlike lengths, and a good table. */
static void try_refused_units(void) {
    static const size_t shapes[][3] = {{0, 0, 0}, {1, 1, 1}, {3, 0, 3}, {3, 3, 3}};
    size_t i, j;
    what = "a good table";
    for (i = 0; i < COUNT(shapes); i++)
        for (j = 0; j < REFUSED_UNITS; j++) {
            guarded_lend_shape(&knots, shapes[i][0], sizeof(int32_t), where);
            guarded_lend_shape(&values, shapes[i][1], sizeof(int32_t), where);
            guarded_lend_shape(&slopes, shapes[i][2], sizeof(int32_t), where);
            fill(&knots, true, 3, 0);
            fill(&values, true, 1, 0);
            fill(&slopes, true, 0, 0);
            try_all_refused(refused_units[j]);
        }
}

/* A good table whose slopes are such as no build makes: each that a change renews becomes another, and so would each that it has to leave. */
static void lend_unbuilt(size_t points) {
    lend(points);
    fill(&knots, true, 3, 0);
    fill(&values, true, 1, 5);
}

static void try_unbuilt_change(size_t point) {
    negwafir_change change = {point, 3 * (int32_t)point + 1, (int32_t)point - 1};
    try_change(change);
}

/* Each point of few, all of which are near an end. */
static void try_changes_of_few(void) {
    size_t points, k;
    what = "a good table that is not built";
    for (points = 2; points <= 8; points++)
        for (k = 0; k < points; k++) {
            unit = k % 2 == 0 ? 8 : (uint32_t)points - 1;
            lend_unbuilt(points);
            try_unbuilt_change(k);
        }
}

/* Near the ends of a long table, and far from them and from its middle. */
static void try_changes_of_many(void) {
    static const size_t points[] = {2, 3, 7, 301, 1015, 1019, 1020};
    size_t i;
    what = "a good table that is not built";
    for (i = 0; i < COUNT(points); i++) {
        unit = some_unit();
        lend_unbuilt(1023);
        try_unbuilt_change(points[i]);
    }
}

/* Lengths of which 16 bits would make those of a table; all of these are refused. */
static void try_long_lengths(void) {
    static const size_t lengths[] = {2, LONGEST_IN_16_BITS, 65536 + 2, 65536 + LONGEST_IN_16_BITS};
    size_t k, v, s;
    what = "zeros";
    unit = 8;
    for (k = 0; k < COUNT(lengths); k++)
        for (v = 0; v < COUNT(lengths); v++)
            for (s = k < 2 && v < 2 ? 2 : 0; s < COUNT(lengths); s++) {
                guarded_lend_long(&knots, lengths[k]);
                guarded_lend_long(&values, lengths[v]);
                guarded_lend_long(&slopes, lengths[s]);
                try_all();
            }
}

/* ---- tables of equal lists, by their widths and rises, with faults put into them */

static int64_t width(uint64_t style) {
    return style == 0 ? 1 : style == 1 ? 1024 : style == 2 ? 1 + (int64_t)dice(1024) : 1 + (int64_t)dice(8);
}

/* Some lie at the limit of the float answer for their width. */
static int64_t rise(uint64_t style, int64_t h) {
    int64_t edge = ((int64_t)1 << 40) / (h * h * h) - 1 + (int64_t)dice(3);
    int64_t most = 1048576;
    int64_t z = style == 0 ? most : style == 1 ? (int64_t)dice(2) : style == 2 ? (int64_t)dice(12) : style == 3 ? (int64_t)dice(1048577) : edge;
    z = z > most ? most : z;
    return dice(3) == 0 ? -z : z;
}

/* A list of which the entry `at` is `number`, and the others follow by their steps. */
static void lay(guarded *g, const int64_t *steps, size_t at, int64_t number) {
    int32_t *list = g->list;
    int64_t x = number;
    size_t i;
    for (i = at; i < g->length; i++) {
        list[i] = (int32_t)x;
        x += i + 1 < g->length ? steps[i] : 0;
    }
    for (i = at, x = number; i > 0; i--) {
        x -= steps[i - 1];
        list[i - 1] = (int32_t)x;
    }
    guarded_keep(g);
}

static size_t some_piece(size_t pieces) {
    size_t places[] = {0, pieces / 2, pieces - 1, (size_t)dice(pieces)};
    return places[dice(COUNT(places))];
}

/* Points whose faults, if there are any, are a width or a rise; one width is that of the two ends of 32 bits. */
static void lay_points(size_t points) {
    static int64_t widths[1024], rises[1024];
    static const int64_t bad_widths[] = {0, -1, 1025, -4294967295}, bad_rises[] = {1048577, -1048577, 2147483647};
    static const int64_t starts[] = {INT32_MIN, -7, 0};
    uint64_t width_style = dice(4), rise_style = dice(5), faults = dice(8);
    size_t i, bad = some_piece(points - 1), steep = some_piece(points - 1);
    for (i = 0; i + 1 < points; i++) {
        widths[i] = width(width_style);
        rises[i] = rise(rise_style, widths[i]);
    }
    if (faults == 1 || faults == 2)
        rises[steep] = bad_rises[dice(COUNT(bad_rises))];
    if (faults == 2 || faults == 3)
        widths[bad] = bad_widths[dice(COUNT(bad_widths))];
    if (dice(3) == 0)
        lay(&knots, widths, bad, widths[bad] < -1 ? INT32_MAX : 0);
    else if (dice(4) == 0)
        lay(&knots, widths, points - 1, INT32_MAX);
    else
        lay(&knots, widths, 0, starts[dice(COUNT(starts))]);
    lay(&values, rises, 0, dice(4) == 0 ? INT32_MIN : -3);
}

/* Slopes around those of the pieces, which may bend or not. */
static void lay_slopes(void) {
    const int32_t *k = knots.list, *v = values.list;
    int32_t *list = slopes.list;
    size_t i, last = slopes.length - 1;
    uint64_t style = dice(4);
    for (i = 0; i < slopes.length; i++) {
        int64_t left = i < last ? (int64_t)i : (int64_t)last - 1;
        int64_t h = (int64_t)k[left + 1] - k[left], z = (int64_t)v[left + 1] - v[left];
        int64_t secant = h > 0 ? (int64_t)unit_of(unit) * z / h : 0;
        int64_t factor = style == 0 ? 0 : style == 1 ? 3 : (int64_t)dice(5);
        int64_t slope = secant > 400000000 || secant < -400000000 ? secant : factor * secant;
        list[i] = style == 3 && dice(6) == 0 ? extreme() : (int32_t)slope;
    }
    guarded_keep(&slopes);
}

/* A position of some piece that is neither a knot nor beside one, if the piece is wide enough for that. */
static int64_t well_inside(void) {
    const int32_t *k = knots.list;
    size_t piece = (size_t)dice(knots.length - 1);
    int64_t h = (int64_t)k[piece + 1] - k[piece];
    return (int64_t)k[piece] + 2 + (int64_t)dice(h > 4 ? (uint64_t)h - 3 : 1);
}

static void try_position(int64_t position) {
    if (position >= INT32_MIN && position <= INT32_MAX)
        try_at((int32_t)position);
}

static void try_positions(void) {
    const int32_t *k = knots.list;
    size_t last = knots.length - 1, inner = (size_t)dice(knots.length);
    int64_t positions[] = {INT32_MIN, (int64_t)k[0] - 1, k[0], (int64_t)k[inner] - 1, k[inner], (int64_t)k[inner] + 1,
                           k[last], (int64_t)k[last] + 1, INT32_MAX};
    size_t i;
    for (i = 0; i < COUNT(positions); i++)
        try_position(positions[i]);
    try_position(well_inside());
    try_position(well_inside());
}

static void try_changes(void) {
    const int32_t *k = knots.list, *v = values.list;
    size_t points[] = {0, 1, 2, 7, (size_t)dice(knots.length), knots.length / 2, knots.length - 3, knots.length - 2, knots.length - 1,
                       knots.length, 65536, (size_t)1 << 32, (size_t)1 << 62, SIZE_MAX};
    static const int32_t shifts[] = {0, 1, -1, 5};
    size_t i;
    for (i = 0; i < COUNT(points); i++) {
        bool there = points[i] < knots.length;
        int32_t shift = shifts[dice(COUNT(shifts))];
        negwafir_change near = {points[i], there ? (int32_t)((int64_t)k[points[i]] + shift) : 0, there ? (int32_t)((int64_t)v[points[i]] - 2 * shift) : 0};
        try_change(near);
        try_change(extreme_change(points[i]));
    }
}

static void try_table(size_t points) {
    unit = some_unit();
    lend(points);
    lay_points(points);
    lay_slopes();
    if (dice(4) == 0)
        try_all_refused(refused_units[dice(REFUSED_UNITS)]);
    try_points();
    try_check();
    try_positions();
    try_changes();
    try_check();
    try_build();
    try_check();
    try_positions();
    try_changes();
    try_check();
}

/* Few calls: there are many lengths. */
static void try_length(size_t points) {
    negwafir_change change = {(size_t)dice(points), 0, 0};
    unit = points % 9;
    lend(points);
    lay_points(points);
    lay_slopes();
    try_points();
    try_check();
    try_position(well_inside());
    try_build();
    try_check();
    try_position(well_inside());
    change.knot = ((int32_t *)knots.list)[change.point];
    change.value = ((int32_t *)values.list)[change.point] ^ 1;
    try_change(change);
    try_check();
}

static void try_tables(void) {
    size_t points;
    int round;
    what = "a table by its widths and rises";
    trying("small tables");
    for (round = 0; round < 600; round++)
        try_table(2 + (size_t)dice(6));
    trying("the largest tables");
    for (round = 0; round < 20; round++)
        try_table(1023 + (size_t)dice(2));
    trying("tables between them");
    for (round = 0; round < 60; round++)
        try_table(8 + (size_t)dice(round % 4 == 0 ? 1015 : 30));
    trying("tables of every number of points");
    for (points = 2; points <= 1024; points++)
        try_length(points);
}

void known_tables(void) {
    guarded_map(&knots);
    guarded_map(&values);
    guarded_map(&slopes);
    for (where = GUARD_BEHIND; where <= GUARD_BEFORE; where++) {
        trying("units that are refused");
        try_refused_units();
        what = "a table whose answer is known";
        trying("units that are known");
        try_known_units();
        for (unit = 0; unit <= 8; unit++) {
            trying("slopes that are known");
            try_known_slopes();
            trying("ends that are known");
            try_known_ends();
            trying("changes that are known");
            try_known_changes();
        }
        trying("values that are known");
        try_known_values();
        trying("sizes that are known");
        try_known_sizes();
        trying("bends that are known");
        try_known_bends();
        trying("changes of few points");
        try_changes_of_few();
        trying("changes in a long table");
        try_changes_of_many();
    }
}

void bad_tables(void) {
    for (where = GUARD_BEHIND; where <= GUARD_BEFORE; where++) {
        trying("lengths that 16 bits do not hold");
        try_long_lengths();
        trying("good lists of unlike lengths");
        try_lengths(true);
        trying("extreme lists of unlike lengths");
        try_lengths(false);
        try_tables();
    }
}
