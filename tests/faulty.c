/*
 * A library that answers by rules.c, and has the one fault that FAULT names. With no fault the bad callers pass it, and with any they have to
 * tell: this tries the bad callers, and not the library that is proved. .ci/controller takes the names of the faults from here.
 */
#include "rules.h"

#include <inttypes.h>
#include <stdio.h>
#include <stdlib.h>
#include <string.h>

static bool fault(const char *name) {
    static const char *wanted;
    if (wanted == NULL)
        wanted = getenv("FAULT") ? getenv("FAULT") : "";
    return strcmp(wanted, name) == 0;
}

/* What a fault reads and does nothing with. */
static volatile int64_t seen;

/* Writes the first entry and puts back what it was. */
static void put_back(const int32_t *list) {
    volatile int32_t *first = (int32_t *)list;
    *first ^= 1;
    *first ^= 1;
}

static void put_back_byte(const uint8_t *bytes) {
    volatile uint8_t *first = (uint8_t *)bytes;
    *first ^= 1;
    *first ^= 1;
}

static negwafir_refusal count_refused(void) {
    negwafir_refusal refusal = {NEGWAFIR_COUNT, 0};
    return refusal;
}

/* ---- units */

/* The unit as a call takes it, of some that are none. */
static uint32_t unit_by_fault(uint32_t s) {
    if (fault("unit_of_9_taken_for_8") && s == 9)
        return 8;
    if (fault("unit_in_5_bits"))
        return s & 31;
    if (fault("unit_in_6_bits"))
        return s & 63;
    if (fault("unit_in_8_bits"))
        return s & 255;
    if (fault("unit_in_16_bits"))
        return s & 65535;
    if (fault("unit_with_a_sign") && s > INT32_MAX)
        return 8;
    return s;
}

#define TABLE \
    uint32_t s, const int32_t *knots, size_t knots_length, const int32_t *values, size_t values_length, const int32_t *slopes, size_t slopes_length
#define LISTS s, knots, knots_length, values, values_length, slopes, slopes_length

static table listed(TABLE) {
    table t = {unit_by_fault(s), knots, values, slopes, knots_length, values_length, slopes_length};
    return t;
}

/* The table of before, when every slope was in 1/256. */
static table in_256ths(table t) {
    t.s = 8;
    return t;
}

/* The table of a call that never asks the unit, or asks it after the lengths: it is not refused by 12, then, or not before 1. */
static table asked(table t, bool never, bool late) {
    bool differ = t.knots_length != t.values_length || t.knots_length != t.slopes_length;
    return !is_unit(t.s) && (never || (late && differ)) ? in_256ths(t) : t;
}

/* The table of a call that asks the unit, and forgets it in the check. */
static table checked(table t, bool forgotten) {
    return is_unit(t.s) && forgotten ? in_256ths(t) : t;
}

/* Whether the position is neither a knot nor beside one, on a piece wider than most. */
static bool is_well_inside(table t, int32_t position) {
    size_t i = piece_at(t, position);
    return t.knots[i + 1] - t.knots[i] > 8 && position > t.knots[i] + 1 && position < t.knots[i + 1] - 1;
}

/* ---- roundings that are not the one wanted of a value */

static wide toward_zero(wide n, wide d) {
    return n / d;
}

static wide nearest_by_division_toward_zero(wide n, wide d) {
    return (2 * n + d) / (2 * d);
}

static wide half_down(wide n, wide d) {
    return -nearest(-n, d);
}

static wide half_away_from_zero(wide n, wide d) {
    return n < 0 ? half_down(n, d) : nearest(n, d);
}

static wide half_to_even(wide n, wide d) {
    return nearest(n, d) % 2 == 0 ? nearest(n, d) : half_down(n, d);
}

/* What is added for a half is more than that where the divisor is odd. */
static wide odd_half_rounded_up(wide n, wide d) {
    return rounded_down(n + (d - d / 2), d);
}

/* ---- tables */

/* What the lists' lengths are in fewer bits. */
static table shortened(table t, size_t mask) {
    t.knots_length &= mask;
    t.values_length &= mask;
    t.slopes_length &= mask;
    return t;
}

negwafir_refusal negwafir_points(TABLE) {
    table t = asked(listed(LISTS), fault("points_of_any_unit"), fault("points_asks_the_lengths_before_the_unit"));
    if (fault("lengths_in_16_bits"))
        t = shortened(t, 65535);
    if (fault("eight_points_refused") && knots_length == 8)
        return count_refused();
    if (fault("twelve_points_refused") && knots_length == 12)
        return count_refused();
    if (fault("five_hundred_and_twelve_points_refused") && knots_length == 512)
        return count_refused();
    if (fault("values_read_by_the_knots_length") && knots_length == 4096 && values_length == 2)
        seen = values[knots_length - 1];
    if (fault("points_reads_the_slopes") && slopes_length > 0)
        seen = slopes[0];
    if (fault("points_puts_a_knot_back") && knots_length > 0)
        put_back(knots);
    if (fault("longer_slopes_taken") && slopes_length > knots_length)
        t.slopes_length = knots_length;
    if (fault("first_entry_of_an_empty_list_read"))
        seen = knots[0];
    if (fault("a_point_too_many") && knots_length == 1025 && values_length == 1025 && slopes_length == 1025)
        t.knots_length = t.values_length = t.slopes_length = 1024;
    return build_refusal(t);
}

/* The accepted region beyond its triangle, for a piece of width 1 that rises by Z. */
static bool ellipse_in_doubles(double Z, double m, double n) {
    double over = m + n - 3 * Z;
    return Z > 0 && over > 0 && m <= 4 * Z && n <= 4 * Z && over * over <= m * n;
}

negwafir_refusal negwafir_check(TABLE) {
    table t = asked(listed(LISTS), fault("check_of_any_unit"), fault("check_asks_the_lengths_before_the_unit"));
    negwafir_refusal refusal = check_refusal(checked(t, fault("bend_asked_in_256ths")));
    if (fault("check_of_a_refused_unit_reads_a_knot") && !is_unit(s) && knots_length > 0)
        seen = knots[0];
    if (fault("unit_refused_at_its_number") && refusal.number == NEGWAFIR_SLOPE_UNIT)
        refusal.place = s;
    if (fault("unit_refused_by_11") && refusal.number == NEGWAFIR_SLOPE_UNIT)
        refusal.number = 11;
    if (fault("place_always_0"))
        refusal.place = 0;
    if (fault("bend_missed_between_many_points") && knots_length > 7 && knots_length < 1023 && refusal.number == NEGWAFIR_BEND)
        refusal.number = refusal.place = 0;
    if (fault("check_puts_a_slope_back") && slopes_length > 0)
        put_back(slopes);
    if (fault("bend_asked_in_doubles") && knots_length == 2 && refusal.number == NEGWAFIR_BEND && knots[1] - knots[0] == 1
        && ellipse_in_doubles((double)unit_of(s) * (values[1] - values[0]), slopes[0], slopes[1]))
        refusal.number = 0;
    if (fault("place_one_too_far") && refusal.number == NEGWAFIR_BEND)
        refusal.place++;
    if (fault("bend_refused_by_4") && refusal.number == NEGWAFIR_BEND)
        refusal.number = NEGWAFIR_RISE;
    if (fault("read_behind_the_last_knot") && refusal.number == 0)
        seen = knots[knots_length];
    if (fault("read_before_the_first_slope") && refusal.number == 0)
        seen = *(slopes - 1);
    return refusal;
}

/* ---- slopes, and the calls that write them */

static int32_t inner_in_doubles(double unit, double h1, double z1, double h2, double z2) {
    double left = 2 * h2 + h1, right = h2 + 2 * h1;
    return (int32_t)(unit * (left + right) / (left * h1 / z1 + right * h2 / z2));
}

/* The rule for an end as the public routine PCHIM works it out. */
static int32_t end_in_doubles(double unit, double h1, double z1, double h2, double z2) {
    double secant = z1 / h1, next = z2 / h2, both = h1 + h2;
    double slope = (h1 + both) / both * secant - h1 / both * next;
    if (slope * secant <= 0)
        return 0;
    return (int32_t)(unit * (secant * next < 0 && (slope - 3 * secant) * secant > 0 ? 3 * secant : slope));
}

/* The rule in its parts: whether the slope is 0, whether the bound is taken, what is taken then, and what otherwise. */
static bool is_zero_by_fault(wide unit, table_end e) {
    if (fault("end_of_a_level_piece_not_0") && e.z1 == 0)
        return false;
    if (fault("end_that_opposes_its_piece"))
        return e.z1 == 0;
    if (fault("end_opposed_by_a_product_of_64_bits"))
        return (int64_t)((uint64_t)unit * (uint64_t)e.above * (uint64_t)e.z1) <= 0;
    if (fault("end_0_between_opposite_rises") && e.z1 * e.z2 < 0)
        return true;
    return is_zero_or_opposed(e);
}

static bool is_bound_by_fault(table_end e) {
    if (fault("end_without_a_bound"))
        return false;
    if (fault("end_bound_compared_before_the_unit"))
        return e.z1 * e.z2 < 0 && size_of(e.above) / e.below > 3 * size_of(e.z1) / e.h1;
    return is_beyond_the_bound(e);
}

static wide in_units_by_fault(wide unit, wide above, wide below) {
    if (fault("end_rounded_down"))
        return rounded_down(unit * above, below);
    if (fault("end_rounded_to_the_nearest"))
        return nearest(unit * above, below);
    if (fault("end_rounded_before_the_unit"))
        return unit * (above / below);
    return unit * above / below;
}

static wide bound_by_fault(wide unit, table_end e) {
    if (fault("end_bound_of_a_rounded_secant"))
        return 3 * (unit * e.z1 / e.h1);
    if (fault("end_bound_rounded_before_the_unit"))
        return unit * (3 * e.z1 / e.h1);
    if (fault("end_bound_without_its_sign"))
        return unit * 3 * size_of(e.z1) / e.h1;
    if (fault("end_bound_of_768"))
        return 768 * e.z1 / e.h1;
    return in_units_by_fault(unit, 3 * e.z1, e.h1);
}

static wide quotient_by_fault(wide unit, table_end e) {
    if (fault("end_of_rounded_secants"))
        return ((2 * e.h1 + e.h2) * (unit * e.z1 / e.h1) - e.h1 * (unit * e.z2 / e.h2)) / (e.h1 + e.h2);
    if (fault("end_divided_by_32_bits"))
        return unit * e.above / (int32_t)e.below;
    if (fault("end_quotient_of_256"))
        return 256 * e.above / e.below;
    return in_units_by_fault(unit, e.above, e.below);
}

static int32_t end_by_fault(wide unit, table_end e) {
    if (fault("end_slopes_in_doubles"))
        return end_in_doubles((double)unit, (double)e.h1, (double)e.z1, (double)e.h2, (double)e.z2);
    if (is_zero_by_fault(unit, e))
        return 0;
    return (int32_t)(is_bound_by_fault(e) ? bound_by_fault(unit, e) : quotient_by_fault(unit, e));
}

/* As of the piece's two points alone. */
static int32_t secant_of(uint32_t s, const int32_t *knots, const int32_t *values, size_t piece) {
    return slope_at(s, knots + piece, values + piece, 2, 0);
}

static int32_t last_by_fault(wide unit, const int32_t *knots, const int32_t *values, size_t last) {
    if (fault("last_end_read_left_to_right"))
        return end_by_fault(unit, end_at(knots, values, last - 2, last - 1));
    if (fault("last_end_with_its_widths_swapped")) {
        int32_t swapped[] = {knots[last - 2], knots[last - 2] + (knots[last] - knots[last - 1]), knots[last]};
        return end_by_fault(unit, end_at(swapped, values + last - 2, 1, 0));
    }
    return end_by_fault(unit, end_at(knots, values, last - 1, last - 2));
}

static int32_t end_point_by_fault(uint32_t s, const int32_t *knots, const int32_t *values, size_t points, size_t i) {
    size_t last = points - 1;
    if (fault("ends_by_the_secant") || (fault("ends_of_three_points_by_the_secant") && points == 3))
        return secant_of(s, knots, values, i == 0 ? 0 : last - 1);
    return i == 0 ? end_by_fault(unit_of(s), end_at(knots, values, 0, 1)) : last_by_fault(unit_of(s), knots, values, last);
}

/* A slope in 1/256 that is cut toward zero is the one in the unit; cut by floor it is another where it falls. */
static int32_t slope_by_fault(uint32_t s, const int32_t *knots, const int32_t *values, size_t points, size_t i) {
    bool is_end = i == 0 || i + 1 == points;
    if (fault("slopes_built_in_256ths_and_cut_by_floor"))
        return (int32_t)rounded_down(slope_at(8, knots, values, points, i), 256 / unit_of(s));
    if (points == 2 && fault("end_rule_at_two_points"))
        return end_by_fault(unit_of(s), end_at(knots, values, 0, 1));
    if (points == 2)
        return slope_at(fault("secant_of_256") ? 8 : s, knots, values, points, i);
    if (is_end)
        return end_point_by_fault(s, knots, values, points, i);
    return slope_at(fault("mean_of_768") ? 8 : s, knots, values, points, i);
}

negwafir_refusal negwafir_build(uint32_t s, const int32_t *knots, size_t knots_length, const int32_t *values, size_t values_length, int32_t *slopes,
                                size_t slopes_length) {
    table t = asked(listed(LISTS), fault("build_of_any_unit"), fault("build_asks_the_lengths_before_the_unit"));
    negwafir_refusal refusal = build_refusal(t);
    size_t i, end = fault("last_slope_left") ? slopes_length - 1 : slopes_length;
    if (fault("build_of_a_refused_unit_writes_a_slope") && refusal.number == NEGWAFIR_SLOPE_UNIT && slopes_length > 0)
        slopes[0] = 0;
    if (fault("build_writes_before_it_refuses") && slopes_length > 0)
        slopes[0] = 0;
    if (fault("refused_build_puts_a_slope_back") && refusal.number && slopes_length > 0)
        put_back(slopes);
    if (fault("refused_build_reads_the_slopes") && refusal.number && slopes_length > 0)
        seen = slopes[0];
    if (fault("build_puts_a_value_back") && values_length > 0)
        put_back(values);
    if (refusal.number || (fault("built_only_where_a_piece_bends") && check_refusal(t).number == 0))
        return refusal;
    for (i = 0; i < end; i++)
        slopes[i] = slope_by_fault(t.s, knots, values, slopes_length, i);
    if (fault("slopes_left_between_many_points") && slopes_length > 7 && slopes_length < 1023)
        slopes[slopes_length / 3] ^= 1;
    if (fault("inner_slopes_in_doubles") && slopes_length == 3 && slopes[1] > 0)
        slopes[1] = inner_in_doubles((double)unit_of(t.s), knots[1] - knots[0], values[1] - values[0], knots[2] - knots[1], values[2] - values[1]);
    if (fault("a_slope_behind_the_last"))
        slopes[slopes_length] = 0;
    if (fault("build_writes_a_value"))
        ((int32_t *)values)[0]++;
    return refusal;
}

/* The refusal of a change that asks for the point before the unit. */
static negwafir_refusal point_asked_first(table t, negwafir_change change, negwafir_refusal refusal) {
    if (refusal.number == NEGWAFIR_SLOPE_UNIT && change.point >= t.knots_length)
        refusal.number = NEGWAFIR_POINT;
    return refusal;
}

negwafir_refusal negwafir_changed_points(TABLE, negwafir_change change) {
    table t = asked(listed(LISTS), fault("changed_points_of_any_unit"), fault("changed_points_asks_the_lengths_before_the_unit"));
    negwafir_refusal refusal = change_refusal(t, change);
    if (fault("changed_points_asks_the_point_before_the_unit"))
        refusal = point_asked_first(t, change, refusal);
    if (fault("asked_and_changed") && refusal.number == 0)
        ((int32_t *)values)[change.point] = change.value ^ 1;
    if (fault("asked_change_reads_the_slopes") && slopes_length > 0)
        seen = slopes[0];
    if (fault("asked_change_puts_a_value_back") && values_length > 0)
        put_back(values);
    if (fault("no_point_refused_by_6") && refusal.number == NEGWAFIR_POINT)
        refusal.number = NEGWAFIR_POSITION;
    return refusal;
}

/* Slopes that a change leaves as they were, though they belong to it. Where point 2 is taken for the second point, slope 0 is left just so. */
static bool is_left_by_fault(size_t points, size_t changed, size_t i) {
    if (fault("changed_slope_only"))
        return i != changed;
    if (fault("slope_behind_the_seventh_of_many_left"))
        return points == 1023 && changed == 7 && i == 8;
    if (fault("slope_left_between_the_ends_and_the_middle"))
        return changed > 4 && changed + 3 < points && changed != points / 2 && i == changed + 1;
    if (fault("slope_0_left_by_a_change_of_point_2"))
        return changed == 2 && i == 0;
    if (fault("last_slope_left_by_a_change_of_the_third_from_the_end"))
        return changed + 3 == points && i + 1 == points;
    if (fault("only_slopes_beside_renewed_in_three_points"))
        return points == 3 && (i > changed + 1 || changed > i + 1);
    return false;
}

/* Slopes that a change renews, though they do not belong to it. */
static bool is_added_by_fault(size_t points, size_t changed, size_t i) {
    if (fault("a_slope_too_many"))
        return i + 2 == changed || i == changed + 2;
    if (fault("slope_0_renewed_by_a_change_of_point_3"))
        return changed == 3 && i == 0;
    if (fault("last_slope_renewed_by_a_change_of_the_fourth_from_the_end"))
        return changed + 4 == points && i + 1 == points;
    return false;
}

static int32_t renewed_by_fault(uint32_t s, const int32_t *knots, const int32_t *values, size_t points, size_t i) {
    if (fault("changed_ends_by_the_secant") && (i == 0 || i + 1 == points))
        return secant_of(s, knots, values, i == 0 ? 0 : i - 1);
    return slope_by_fault(fault("renewed_in_256ths") ? 8 : s, knots, values, points, i);
}

/* The slopes that a change renews are one range. Where its end is compared with points - 3, that wraps if there are 2 points, and a change of
 * the last of them renews a slope behind it. */
static void renew_by_fault(uint32_t s, const int32_t *knots, const int32_t *values, int32_t *slopes, size_t points, size_t changed) {
    size_t i, end = fault("slopes_renewed_up_to_a_wrapped_end") && changed < points - 3 ? changed + 2 : points;
    for (i = 0; i < end; i++)
        if (is_renewed(points, changed, i) ? !is_left_by_fault(points, changed, i) : is_added_by_fault(points, changed, i))
            slopes[i] = renewed_by_fault(s, knots, values, points, i);
}

negwafir_refusal negwafir_change_point(uint32_t s, int32_t *knots, size_t knots_length, int32_t *values, size_t values_length, int32_t *slopes,
                                       size_t slopes_length, negwafir_change change) {
    table t = asked(listed(LISTS), fault("change_of_any_unit"), fault("change_asks_the_lengths_before_the_unit"));
    negwafir_refusal refusal = change_refusal(t, change);
    if (fault("change_asks_the_point_before_the_unit"))
        refusal = point_asked_first(t, change, refusal);
    if (fault("change_of_a_refused_unit_writes_a_knot") && refusal.number == NEGWAFIR_SLOPE_UNIT && change.point < knots_length)
        knots[change.point] = change.knot;
    if (fault("changed_though_refused") && refusal.number == NEGWAFIR_WIDTH)
        knots[change.point] = change.knot;
    if (fault("refused_change_puts_a_knot_back") && refusal.number == NEGWAFIR_WIDTH)
        put_back(knots + change.point);
    if (fault("refused_change_puts_a_slope_back") && refusal.number == NEGWAFIR_POINT)
        put_back(slopes);
    if (fault("point_in_16_bits") && refusal.number == NEGWAFIR_POINT && change.point == 65536)
        return count_refused();
    if (refusal.number)
        return refusal;
    if (fault("nothing_renewed_where_the_point_stays") && knots[change.point] == change.knot && values[change.point] == change.value)
        return refusal;
    knots[change.point] = change.knot;
    values[change.point] = change.value;
    renew_by_fault(t.s, knots, values, slopes, slopes_length, change.point);
    return refusal;
}

/* ---- positions and pieces */

negwafir_place negwafir_locate(TABLE, int32_t position) {
    table t = asked(listed(LISTS), fault("locate_of_any_unit"), fault("locate_asks_the_lengths_before_the_unit"));
    negwafir_place place = {evaluation_refusal(checked(t, fault("locate_checks_in_256ths")), position), 0};
    if (place.refusal.number == 0)
        place.piece = piece_at(t, position);
    if (fault("a_piece_where_the_unit_is_refused") && place.refusal.number == NEGWAFIR_SLOPE_UNIT)
        place.piece = 1;
    if (fault("first_piece_well_inside") && place.refusal.number == 0 && is_well_inside(t, position))
        place.piece = 0;
    if (fault("locate_puts_a_knot_back") && knots_length > 0)
        put_back(knots);
    if (fault("knot_to_the_piece_that_ends_there") && place.piece > 0 && position == knots[place.piece])
        place.piece--;
    if (fault("last_knot_to_a_piece_that_is_not_there") && place.refusal.number == 0 && position == knots[knots_length - 1])
        place.piece++;
    return place;
}

/* The value on a straight line between the two points. */
static int32_t straight(table t, int32_t position) {
    size_t i = piece_at(t, position);
    wide h = (wide)t.knots[i + 1] - t.knots[i], z = (wide)t.values[i + 1] - t.values[i];
    return (int32_t)(t.values[i] + nearest(z * ((wide)position - t.knots[i]), h));
}

static int32_t value_in_doubles(table t, int32_t position) {
    size_t i = piece_at(t, position);
    double h = t.knots[i + 1] - t.knots[i], z = t.values[i + 1] - t.values[i], x = (position - t.knots[i]) / h;
    double a = t.slopes[i] * h / (double)unit_of(t.s), b = t.slopes[i + 1] * h / (double)unit_of(t.s);
    return t.values[i] + (int32_t)(((a + b - 2 * z) * x + (3 * z - 2 * a - b)) * x * x + a * x + 0.5);
}

/* The left value and the quotient, rounded in some way. */
static int32_t value_by(wide round(wide n, wide d), table t, int32_t position) {
    size_t i = piece_at(t, position);
    return (int32_t)(t.values[i] + round(risen_on(t, i, position), denominator_on(t, i)));
}

/* The unit in the rise or in the denominator, and the 256 of before in the other. */
static int32_t value_over(table above, table below, int32_t position) {
    size_t i = piece_at(above, position);
    return (int32_t)(above.values[i] + nearest(risen_on(above, i, position), denominator_on(below, i)));
}

static int32_t value_by_another_rounding(table t, int32_t position) {
    size_t i = piece_at(t, position);
    if (fault("value_rounded_down"))
        return value_by(rounded_down, t, position);
    if (fault("value_rounded_toward_zero"))
        return value_by(toward_zero, t, position);
    if (fault("value_nearest_by_division_toward_zero"))
        return value_by(nearest_by_division_toward_zero, t, position);
    if (fault("value_half_away_from_zero"))
        return value_by(half_away_from_zero, t, position);
    if (fault("value_half_down"))
        return value_by(half_down, t, position);
    if (fault("value_half_to_even"))
        return value_by(half_to_even, t, position);
    if (fault("value_odd_half_rounded_up"))
        return value_by(odd_half_rounded_up, t, position);
    if (fault("fall_as_the_mirror_of_the_rise") && t.values[i + 1] < t.values[i])
        return value_by(half_down, t, position);
    return value_at(t, position);
}

/* Values that are wrong well inside a piece, or at the ends of 32 bits, and nowhere else. */
static int32_t value_by_fault(table t, int32_t position) {
    if (fault("straight_well_inside") && is_well_inside(t, position))
        return straight(t, position);
    if (fault("value_over_256_cubes"))
        return value_over(t, in_256ths(t), position);
    if (fault("value_of_256_rises"))
        return value_over(in_256ths(t), t, position);
    if (fault("left_value_between_many_points") && t.knots_length > 7 && t.knots_length < 1023)
        return t.values[piece_at(t, position)];
    if (fault("value_in_doubles") && t.knots_length == 2 && t.values[1] > t.values[0] && t.values[0] == 0)
        return value_in_doubles(t, position);
    if (fault("value_wrong_at_the_largest_knot") && position == INT32_MAX)
        return 0;
    if (fault("value_wrong_at_the_least_knot") && position == INT32_MIN)
        return 0;
    return value_by_another_rounding(t, position);
}

negwafir_value negwafir_evaluate(TABLE, int32_t position) {
    table t = asked(listed(LISTS), fault("evaluate_of_any_unit"), fault("evaluate_asks_the_lengths_before_the_unit"));
    negwafir_value at = {evaluation_refusal(checked(t, fault("evaluate_checks_in_256ths")), position), 0};
    if (at.refusal.number == 0)
        at.value = value_by_fault(t, position);
    if (fault("evaluate_puts_a_value_back") && values_length > 0)
        put_back(values);
    if (fault("largest_knot_refused") && at.refusal.number == 0 && knots[knots_length - 1] == INT32_MAX) {
        at.refusal.number = NEGWAFIR_POSITION;
        at.value = 0;
    }
    if (fault("a_value_where_refused") && at.refusal.number == NEGWAFIR_POSITION)
        at.value = values[0] ^ 1;
    if (fault("a_value_where_the_unit_is_refused") && at.refusal.number == NEGWAFIR_SLOPE_UNIT)
        at.value = 1;
    if (fault("value_one_too_high") && at.refusal.number == 0 && at.value < -1)
        at.value++;
    return at;
}

/* The limit scaled by the unit: asked of the rise in units, whose size times the width cubed has to be within 2^bits. */
static negwafir_refusal float_refusal_in_units(table t, int32_t position, unsigned bits) {
    negwafir_refusal refusal = evaluation_refusal(t, position), large = {NEGWAFIR_SIZE, 0};
    size_t i;
    if (refusal.number)
        return refusal;
    large.place = i = piece_at(t, position);
    return size_of((wide)t.values[i + 1] - t.values[i]) * denominator_on(t, i) > (wide)1 << bits ? large : refusal;
}

static negwafir_refusal float_refusal_by_fault(table t, int32_t position) {
    if (fault("float_limit_of_2_40_units"))
        return float_refusal_in_units(t, position, 40);
    if (fault("float_limit_of_2_48_units"))
        return float_refusal_in_units(t, position, 48);
    return float_refusal(checked(t, fault("float_answer_checks_in_256ths")), position);
}

negwafir_told negwafir_float_answer(TABLE, int32_t position) {
    table t = asked(listed(LISTS), fault("float_answer_of_any_unit"), fault("float_answer_asks_the_lengths_before_the_unit"));
    negwafir_told told = {{0, 0}, NEGWAFIR_DWELL, 0, 0, 1};
    negwafir_refusal refusal = float_refusal_by_fault(t, position);
    if (refusal.number == 0)
        told = told_at(t, position);
    told.refusal = refusal;
    if (fault("move_over_256_cubes") && told.kind == NEGWAFIR_MOVE)
        told.denominator = (double)denominator_on(in_256ths(t), piece_at(t, position));
    if (fault("move_of_256_rises") && told.kind == NEGWAFIR_MOVE)
        told.numerator = (double)risen_on(in_256ths(t), piece_at(t, position), position);
    if (fault("a_level_where_the_unit_is_refused") && refusal.number == NEGWAFIR_SLOPE_UNIT)
        told.left = 1;
    if (fault("minus_zero") && told.kind == NEGWAFIR_MOVE && told.numerator == 0)
        told.numerator = -0.0;
    if (fault("refusal_at_minus_zero") && refusal.number)
        told.left = -0.0;
    if (fault("large_refused_at_place_0") && refusal.number == NEGWAFIR_SIZE)
        told.refusal.place = 0;
    if (fault("numerator_in_single_floats_well_inside") && refusal.number == 0 && is_well_inside(t, position))
        told.numerator = (float)told.numerator;
    if (fault("float_answer_puts_a_slope_back") && slopes_length > 0)
        put_back(slopes);
    if (fault("move_on_a_flat_piece") && refusal.number == 0)
        told.kind = NEGWAFIR_MOVE;
    return told;
}

/* Verdicts that are wrong at the tips of the accepted region, or beside them, and nowhere else. */
static uint32_t verdict_by_fault(uint32_t s, int64_t h, int64_t z, int32_t m, int32_t n) {
    uint32_t verdict = verdict_of(fault("verdict_in_256ths") ? 8 : s, h, z, m, n);
    int64_t unit = (int64_t)unit_of(s), steepest = 4 * unit * z;
    if (fault("rising_tip_bends") && verdict == NEGWAFIR_RISING && m * h >= steepest)
        return NEGWAFIR_BENDS;
    if (fault("falling_tip_bends") && verdict == NEGWAFIR_FALLING && n * h <= steepest)
        return NEGWAFIR_BENDS;
    if (fault("taken_beside_the_tip") && s == 8 && h == 1 && z == 1 && m == 1025 && n == 256)
        return NEGWAFIR_RISING;
    if (fault("taken_below_the_tip") && s == 8 && h == 1 && z == 1 && m == 1024 && n == 255)
        return NEGWAFIR_RISING;
    if (fault("the_papers_less") && s == 8 && h == 1 && z == 1 && m == 768 && n == 768)
        return NEGWAFIR_BENDS;
    if (fault("flat_if_the_slopes_cancel") && z == 0 && m + (int64_t)n == 0)
        return NEGWAFIR_FLAT;
    if (fault("ellipse_in_doubles") && verdict == NEGWAFIR_BENDS && h == 1 && ellipse_in_doubles((double)(unit * z), m, n))
        return NEGWAFIR_RISING;
    return verdict;
}

/* The causes of a piece in other orders. */
static negwafir_refusal piece_refusal_by_fault(uint32_t s, int64_t h, int64_t z) {
    negwafir_refusal refusal = piece_refusal(s, h, z);
    if (fault("rise_asked_first") && is_unit(s) && !is_rise(z))
        refusal.number = NEGWAFIR_RISE;
    if (fault("judge_of_any_unit") && !is_unit(s))
        return piece_refusal(8, h, z);
    if (fault("judge_asks_the_width_before_the_unit") && !is_width(h))
        refusal.number = NEGWAFIR_WIDTH;
    if (fault("judge_asks_the_rise_before_the_unit") && is_width(h) && !is_rise(z))
        refusal.number = NEGWAFIR_RISE;
    return refusal;
}

negwafir_judgement negwafir_judge(uint32_t s, int64_t h, int64_t z, int32_t m, int32_t n) {
    uint32_t unit = unit_by_fault(s);
    negwafir_judgement judgement = {piece_refusal_by_fault(unit, h, z), NEGWAFIR_NONE};
    if (judgement.refusal.number == 0)
        judgement.verdict = verdict_by_fault(is_unit(unit) ? unit : 8, h, z, m, n);
    if (fault("a_verdict_where_the_unit_is_refused") && judgement.refusal.number == NEGWAFIR_SLOPE_UNIT)
        judgement.verdict = NEGWAFIR_FLAT;
    return judgement;
}

/* ---- numbers */

int64_t negwafir_difference(int32_t left, int32_t right) {
    return fault("difference_in_32_bits") ? (int32_t)((uint32_t)right - (uint32_t)left) : (int64_t)right - left;
}

bool negwafir_between(int64_t low, int64_t x, int64_t high) {
    return low <= x && (fault("end_left_out") ? x < high : x <= high);
}

int64_t negwafir_floor_div(int64_t n, int64_t d) {
    if (fault("division_by_7_toward_zero") && d == 7)
        return n / d;
    if (fault("division_by_some_toward_zero") && d > 4000 && d < 60000)
        return n / d;
    if (fault("whole_quotient_by_7_too_low") && d == 7 && n < 0 && n % d == 0)
        return n / d - 1;
    if (fault("division_toward_zero") && d > 0)
        return n / d;
    return d > 0 ? (int64_t)rounded_down(n, d) : 0;
}

int64_t negwafir_nearest_div(int64_t n, int64_t d) {
    if (d < 1)
        return fault("nearest_by_minus_1") && d == -1 && n > 0 ? -n : 0;
    if (fault("nearest_rounded_down"))
        return (int64_t)rounded_down(n, d);
    if (fault("nearest_toward_zero"))
        return n / d;
    if (fault("nearest_by_division_toward_zero"))
        return (int64_t)nearest_by_division_toward_zero(n, d);
    if (fault("half_away_from_zero"))
        return (int64_t)half_away_from_zero(n, d);
    if (fault("half_down"))
        return (int64_t)half_down(n, d);
    if (fault("half_to_even"))
        return (int64_t)half_to_even(n, d);
    if (fault("odd_half_rounded_up"))
        return (int64_t)odd_half_rounded_up(n, d);
    if (fault("sum_with_the_half_wraps"))
        return (int64_t)rounded_down((int64_t)((uint64_t)n + (uint64_t)(d / 2)), d);
    if (fault("one_too_few_from_2_62_on") && n >= INT64_C(4611686018427387904))
        return (int64_t)nearest(n, d) - 1;
    return (int64_t)nearest(n, d);
}

bool negwafir_unit_within(uint32_t s) {
    if (fault("unit_within_takes_9") && s == 9)
        return true;
    if (fault("unit_within_refuses_8") && s == 8)
        return false;
    if (fault("unit_within_refuses_0") && s == 0)
        return false;
    if (fault("unit_within_in_8_bits"))
        return is_unit(s & 255);
    if (fault("unit_within_with_a_sign") && s > INT32_MAX)
        return true;
    return is_unit(s);
}

bool negwafir_count_within(size_t n) {
    if (fault("count_in_16_bits"))
        return is_count(n & 65535);
    if (fault("count_in_32_bits"))
        return is_count(n & 4294967295);
    if (fault("count_of_512_refused") && n == 512)
        return false;
    return is_count(n) || (fault("one_point_is_enough") && n == 1);
}

bool negwafir_width_within(int64_t h) {
    if (fault("width_of_777_refused") && h == 777)
        return false;
    if (fault("width_of_100_refused") && h == 100)
        return false;
    return is_width(fault("width_in_32_bits") ? (int32_t)h : h);
}

bool negwafir_rise_within(int64_t z) {
    return is_rise(z) && !(fault("least_rise_refused") && z == -1048576) && !(fault("fall_of_700_refused") && z == -700);
}

/* ---- text */

size_t negwafir_find(const uint8_t *bytes, size_t bytes_length, size_t from, uint8_t byte) {
    size_t i = from;
    uint8_t wanted = fault("only_cr_found") ? '\r' : byte;
    while (i < bytes_length && (bytes[i] != wanted || (fault("bytes_above_127_missed") && byte > 127)))
        i++;
    if (fault("find_puts_a_byte_back") && bytes_length > 0)
        put_back_byte(bytes);
    if (fault("read_behind_the_last_byte") && i == bytes_length)
        seen = bytes[i];
    return i;
}

size_t negwafir_content(const uint8_t *line, size_t line_length) {
    if (fault("last_byte_of_an_empty_line_read"))
        seen = line[line_length - 1];
    if (fault("lf_left_out") && line_length > 0 && line[line_length - 1] == '\n')
        return line_length - 1;
    if (fault("lone_cr_kept") && line_length == 1)
        return 1;
    if (fault("every_last_cr_left_out"))
        while (line_length > 1 && line[line_length - 2] == '\r')
            line_length--;
    return line_length > 0 && line[line_length - 1] == '\r' ? line_length - 1 : line_length;
}

static size_t put_behind(uint8_t *into, size_t into_length, size_t held, const void *more, size_t more_length) {
    size_t room = held < into_length ? into_length - held : 0;
    size_t count = more_length < room ? more_length : room;
    if (count > 0)
        memcpy(into + held, more, count);
    return held < into_length ? held + count : into_length;
}

size_t negwafir_append(uint8_t *into, size_t into_length, size_t held, const uint8_t *more, size_t more_length) {
    size_t i, end = put_behind(into, into_length, held, more, more_length);
    if (fault("appended_backward"))
        for (i = held; i < end; i++)
            into[i] = more[more_length - 1 - (i - held)];
    if (fault("full_buffer_put_back") && into_length > 0 && held >= into_length)
        put_back_byte(into);
    if (fault("appended_bytes_put_back") && more_length > 0)
        put_back_byte(more);
    if (fault("a_byte_behind_the_answer") && held < into_length && more_length < into_length - held)
        into[held + more_length] ^= 1;
    return end;
}

/* Bytes that do not end a word here, and do elsewhere. */
static bool ends_by_fault(uint8_t byte) {
    return (byte == '\n' && fault("lf_ends_a_word")) || (byte == '\v' && fault("vt_ends_a_word")) || (byte == 0xa0 && fault("nbsp_ends_a_word"));
}

negwafir_span negwafir_next_word(const uint8_t *line, size_t line_length, size_t from) {
    negwafir_span word = word_from(line, line_length, from);
    size_t i, end = word.end;
    if (fault("a_place_where_no_word_is") && !word.found)
        word.start = word.end = line_length;
    for (i = end; i > word.start; i--)
        if (ends_by_fault(line[i - 1]))
            word.end = i - 1;
    return word;
}

size_t negwafir_count_words(const uint8_t *line, size_t line_length, size_t from) {
    size_t count = 0;
    negwafir_span word;
    for (word = word_from(line, line_length, from); word.found; word = word_from(line, line_length, word.end))
        count++;
    if (fault("words_put_a_byte_back") && line_length > 0)
        put_back_byte(line);
    return count + (fault("empty_word_counted") && from < line_length && is_separator(line[from]));
}

size_t negwafir_part(const uint8_t *line, size_t line_length, size_t start, size_t end) {
    size_t stop = end < line_length || fault("part_behind_the_end") ? end : line_length;
    (void)line;
    return start < line_length && start < stop ? stop - start : 0;
}

static bool begins(const uint8_t *text, size_t length, const char *with) {
    return length > strlen(with) && memcmp(text, with, strlen(with)) == 0;
}

/* How many bytes at the end of a text a fault does not read. */
static size_t unread(const uint8_t *text, size_t length) {
    uint8_t last = length > 1 ? text[length - 1] : '0';
    return (last == '\n' && fault("lf_behind_a_number_taken")) || (last == 0 && fault("0_byte_behind_a_number_taken"));
}

/* A number that does not fit, held for one that does if it never became smaller from one digit to the next. */
static negwafir_read read_by_less(const uint8_t *text, size_t length) {
    negwafir_read large = {NEGWAFIR_TOO_LARGE, 0}, read = {NEGWAFIR_WHOLE, 0};
    uint64_t n = 0, next;
    size_t i;
    for (i = 0; i < length; i++, n = next) {
        next = 10 * n + (uint64_t)(text[i] - '0');
        if (next < n)
            return large;
    }
    read.value = (int64_t)n;
    return n > INT64_MAX ? large : read;
}

/* Texts that are no numbers, or not these, and that other readers take. */
static bool is_read_otherwise(const uint8_t *text, size_t length, negwafir_read *read) {
    negwafir_read zero = {NEGWAFIR_WHOLE, 0}, sixteen = {NEGWAFIR_WHOLE, 16}, eight = {NEGWAFIR_WHOLE, 8};
    negwafir_read none = {NEGWAFIR_NOT_DECIMAL, 0}, large = {NEGWAFIR_TOO_LARGE, 0};
    if (fault("no_text_is_0") && length == 0)
        *read = zero;
    else if (fault("a_sign_alone_is_0") && length == 1 && text[0] == '-')
        *read = zero;
    else if (fault("minus_00_refused") && begins(text, length, "-0"))
        *read = none;
    else if (fault("zeros_in_front_refused") && begins(text, length, "00"))
        *read = none;
    else if (fault("octal_read") && length == 3 && begins(text, length, "01"))
        *read = eight;
    else if (fault("hexadecimal_read") && begins(text, length, "0x"))
        *read = sixteen;
    else if (fault("too_large_before_no_digit") && begins(text, length, "99999999999999999999"))
        *read = large;
    else if (fault("tab_in_front_taken") && begins(text, length, "\t"))
        *read = number_in(text + 1, length - 1, INT64_MIN, INT64_MAX);
    else if (fault("underscore_taken") && begins(text, length, "1_"))
        *read = number_in(text + 2, length - 2, INT64_MIN, INT64_MAX);
    else if (fault("overflow_asked_by_less") && number_in(text, length, INT64_MIN, INT64_MAX).kind == NEGWAFIR_TOO_LARGE && text[0] != '-')
        *read = read_by_less(text, length);
    else
        return false;
    return true;
}

negwafir_read negwafir_whole(const uint8_t *text, size_t text_length) {
    negwafir_read read;
    if (fault("whole_puts_a_byte_back") && text_length > 0)
        put_back_byte(text);
    if (is_read_otherwise(text, text_length, &read))
        return read;
    text_length -= unread(text, text_length);
    if (fault("plus_taken") && text_length == 2 && text[0] == '+')
        return number_in(text + 1, 1, INT64_MIN, INT64_MAX);
    return number_in(text, text_length, fault("least_number_lost") ? -INT64_MAX : INT64_MIN, INT64_MAX);
}

negwafir_read32 negwafir_whole32(const uint8_t *text, size_t text_length) {
    negwafir_read read = number_in(text, text_length, INT32_MIN, fault("limit_too_large") ? (wide)INT32_MAX + 1 : INT32_MAX);
    negwafir_read32 read32 = {read.kind, (int32_t)read.value};
    return read32;
}

size_t negwafir_append_natural(uint8_t *into, size_t into_length, size_t held, uint64_t n) {
    char digits[24];
    int count = sprintf(digits, fault("zero_in_front") ? "%02" PRIu64 : "%" PRIu64, n);
    return put_behind(into, into_length, held, digits, (size_t)count);
}

size_t negwafir_append_whole(uint8_t *into, size_t into_length, size_t held, int64_t n) {
    char digits[24];
    bool dropped = (fault("sign_dropped") && n == INT64_MIN) || (fault("small_sign_dropped") && n == -5);
    int count = sprintf(digits, "%" PRId64, dropped ? 0 : n);
    return put_behind(into, into_length, held, digits, (size_t)count);
}

size_t negwafir_append_whole32(uint8_t *into, size_t into_length, size_t held, int32_t n) {
    char digits[24];
    int count = sprintf(digits, "%" PRId32, n);
    return put_behind(into, into_length, fault("held_overwritten") ? 0 : held, digits, (size_t)count);
}
