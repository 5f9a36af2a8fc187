/*
 * The exact rules once more, in plain C over wide numbers: each answer by its definition, slow, and with nothing of the library. A
 * piece is judged by the least value of its quadratic, and a value is made from the Hermite basis.
 */
#ifndef RULES_H
#define RULES_H

#include "negwafir.h"

__extension__ typedef __int128 wide;

/* Its slopes are in 1/2^s. */
typedef struct {
    uint32_t s;
    const int32_t *knots, *values, *slopes;
    size_t knots_length, values_length, slopes_length;
} table;

/* Why a call is refused, or 0 at place 0. No list is read where its unit, the lengths or the number of points refuse it. */
negwafir_refusal piece_refusal(uint32_t s, wide h, wide z);
negwafir_refusal build_refusal(table t);
negwafir_refusal check_refusal(table t);
negwafir_refusal change_refusal(table t, negwafir_change change);
negwafir_refusal evaluation_refusal(table t, int32_t position);
negwafir_refusal float_refusal(table t, int32_t position);

/* What is answered where the call is not refused. */
size_t piece_at(table t, int32_t position);
int32_t value_at(table t, int32_t position);
negwafir_told told_at(table t, int32_t position);
int32_t slope_at(uint32_t s, const int32_t *knots, const int32_t *values, size_t points, size_t point);
uint32_t verdict_of(uint32_t s, wide h, wide z, wide m, wide n);

/* Whether a change of one point renews the slope of another, or its own: those beside it, slope 0 if it is point 2, and the last slope if
 * it is the third point from the end. */
bool is_renewed(size_t points, size_t changed, size_t point);

/* An end of three or more points: its piece h1, z1, the neighbour h2, z2, and the quotient ((2*h1 + h2)*z1/h1 - h1*z2/h2) / (h1 + h2), which
 * is above / below when it is cleared of fractions by h1*h2. */
typedef struct {
    wide h1, z1, h2, z2, above, below;
} table_end;

/* By the number of its piece and that of the neighbour. */
table_end end_at(const int32_t *knots, const int32_t *values, size_t piece, size_t neighbour);

/* Whether the quotient is zero or opposes z1, or z1 is zero; and whether z1 and z2 have opposite signs and its size is above 3*|z1|/h1. */
bool is_zero_or_opposed(table_end e);
bool is_beyond_the_bound(table_end e);

/* The curve at a position of piece i, and what it has risen by since the left knot, times the denominator, which is 2^s times the width cubed. */
wide curve_on(table t, size_t i, int32_t position);
wide risen_on(table t, size_t i, int32_t position);
wide denominator_on(table t, size_t i);

/* 2^s, for an s that is a unit. */
wide unit_of(uint32_t s);

bool is_unit(uint32_t s);
bool is_count(size_t n);
bool is_width(wide h);
bool is_rise(wide z);

wide size_of(wide x);

/* The largest whole number that is not above n / d, for a d above 0. */
wide rounded_down(wide n, wide d);

/* The whole number nearest to n / d, and of two that are as near the upper one, for a d above 0. */
wide nearest(wide n, wide d);

bool is_separator(uint8_t byte);
negwafir_span word_from(const uint8_t *line, size_t length, size_t from);
negwafir_read number_in(const uint8_t *text, size_t length, wide least, wide most);

#endif
