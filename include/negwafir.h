/*
 * negwafir.h: the curve table of a line of pick-and-place robots, for a controller in C or C++.
 *
 * Every function of the library is proved: for every input it answers what the exact rules say and
 * refuses exactly what they refuse. It is for Linux on x86-64; link it by -lnegwafir, and nothing else.
 *
 * THE TABLE
 *   A table is a slope unit s, from 0 to 8, and three lists of 32-bit signed numbers, with an entry for
 *   every point:
 *     knots    counts of the conveyor
 *     values   positions of the arm
 *     slopes   in 1/2^s of a value per count: whole ones at s = 0, in 1/256 at s = 8
 *   The unit belongs to the table: it is the same s at the build and at every change, check and
 *   evaluation. The library remembers none and converts nothing; with another s the same slopes say
 *   another curve.
 *   Points and pieces are counted from 0. Piece i runs from point i to point i + 1. Its width is the
 *   right knot minus the left knot, its rise the right value minus the left value, and it has the
 *   slope of its left point and the slope of its right point. It is monotone if the arm, on its way
 *   along it, never moves against its rise; a piece without a rise, if the arm stays where it is.
 *
 * LISTS
 *   A list is a pointer and, behind it, the number of its entries: knots, knots_length. NULL with the
 *   length 0 is an empty list, and so is any other pointer with the length 0. NULL with another length
 *   is no list.
 *
 * WHAT IS ASKED OF THE CALLER
 *   Every length is taken, and every number, and no test is needed before a call: it refuses what it
 *   cannot answer. What is asked is what the library cannot see:
 *     - a list has as many entries as its length says, and they are there, and aligned, until the
 *       call returns;
 *     - a list that the call may change shares no memory with another list of that call. Lists that
 *       it only reads may share theirs;
 *     - for negwafir_float_answer, that floats are rounded to the nearest, as they are in C unless a
 *       program says otherwise (fesetround). Otherwise a 0 may be -0; all else stays as promised.
 *
 * REFUSALS
 *   A refusal is a number and a place; number 0 at place 0 is none. The number is the first cause
 *   that holds, in the order that stands with each function. The place is the first piece for which
 *   it does, for 8 the position's piece, and 0 where the cause is not a piece's. So all widths are
 *   checked before any rise, and all rises before any slope: a bad rise at piece 0 and a bad width at
 *   piece 9 give 3 at 9. The slope unit is checked before all else: one above 8 gives 12, whatever the
 *   lists are. A refused call changes no list. Its value, piece or verdict is 0, its float answer a
 *   dwell at 0.
 *
 * CALLS AT THE SAME TIME
 *   The library keeps nothing from one call to the next and allocates no memory. It may be called
 *   from several threads at once, as long as nobody writes a list that a call is using.
 */
#ifndef NEGWAFIR_H
#define NEGWAFIR_H

#include <stdbool.h>
#include <stddef.h>
#include <stdint.h>

#ifdef __cplusplus
extern "C" {
#endif

/* ---- Limits, each itself still taken */

#define NEGWAFIR_MOST_UNIT 8u /* for s; slopes are then in 1/256 of a value per count */
#define NEGWAFIR_FEWEST_POINTS 2u
#define NEGWAFIR_MOST_POINTS 1024u
#define NEGWAFIR_LEAST_WIDTH INT64_C(1)
#define NEGWAFIR_MOST_WIDTH INT64_C(1024)
#define NEGWAFIR_LEAST_RISE (-INT64_C(1048576))
#define NEGWAFIR_MOST_RISE INT64_C(1048576)
#define NEGWAFIR_EXACT INT64_C(1099511627776) /* 2^40, for a rise's size times its width cubed, at every s: see refusal 8 */

/* ---- Refusals: their numbers */

#define NEGWAFIR_DONE 0u /* none, done */
#define NEGWAFIR_LENGTHS 1u /* the lists' lengths differ */
#define NEGWAFIR_COUNT 2u /* fewer than 2 or more than 1024 points */
#define NEGWAFIR_WIDTH 3u /* a width is not in 1 to 1024 */
#define NEGWAFIR_RISE 4u /* a rise is outside its limits */
#define NEGWAFIR_BEND 5u /* a piece is not monotone */
#define NEGWAFIR_POSITION 6u /* position before the first or after the last knot */
#define NEGWAFIR_POINT 7u /* no point with this number */
#define NEGWAFIR_SIZE 8u /* piece too large for the exact float answer */
#define NEGWAFIR_SLOPE_UNIT 12u /* the slope unit is not in 0 to 8 */

/* ---- Verdicts on a piece */

#define NEGWAFIR_NONE 0u /* it is refused */
#define NEGWAFIR_RISING 1u /* it rises, and is monotone */
#define NEGWAFIR_FALLING 2u /* it falls, and is monotone */
#define NEGWAFIR_FLAT 3u /* it is level throughout */
#define NEGWAFIR_BENDS 4u /* it is not monotone */

/* ---- What the drive is told */

#define NEGWAFIR_DWELL 0u /* stay at a level */
#define NEGWAFIR_MOVE 1u /* go to left + numerator / denominator */

/* ---- What text says as a number */

#define NEGWAFIR_WHOLE 0u /* this number */
#define NEGWAFIR_NOT_DECIMAL 1u /* none: it is no whole decimal number */
#define NEGWAFIR_TOO_LARGE 2u /* a number that does not fit, on either side of 0 */

/* ---- Records: they cross by value */

/* Why a call is refused, and where. Both are 0 where it is not. */
typedef struct {
    uint32_t number;
    size_t place;
} negwafir_refusal;

/* A point's number, and the knot and the value that it shall have. */
typedef struct {
    size_t point;
    int32_t knot;
    int32_t value;
} negwafir_change;

/* A position's piece, or the refusal and piece 0. */
typedef struct {
    negwafir_refusal refusal;
    size_t piece;
} negwafir_place;

/* The value at a position, or the refusal and the value 0. */
typedef struct {
    negwafir_refusal refusal;
    int32_t value;
} negwafir_value;

/* A verdict, or the refusal and NEGWAFIR_NONE. */
typedef struct {
    negwafir_refusal refusal;
    uint32_t verdict;
} negwafir_judgement;

/* What the drive is told, or the refusal and a dwell at 0. The arm belongs at left + numerator /
 * denominator, and the drive does the division; a dwell has its level on the left, 0 above and 1
 * below. All three are whole numbers exactly, and a 0 is +0, never -0. */
typedef struct {
    negwafir_refusal refusal;
    uint32_t kind;
    double left;
    double numerator;
    double denominator;
} negwafir_told;

/* A word of a line, from its first position to the one after its last; or none, and 0 for both. */
typedef struct {
    bool found;
    size_t start;
    size_t end;
} negwafir_span;

/* A number of 64 bits; or why the text says none, and 0. */
typedef struct {
    uint32_t kind;
    int64_t value;
} negwafir_read;

/* A number of 32 bits; or why the text says none, and 0. */
typedef struct {
    uint32_t kind;
    int32_t value;
} negwafir_read32;

/* ==== Tables ==== */

/*
 * negwafir_points
 *
 * PURPOSE    Says whether a table's points could be built on, and builds nothing: the answer is
 *            that of negwafir_build.
 * ARGUMENTS  s  the slope unit that the slopes would have.
 *            knots, values  the points.
 *            slopes  as long as the others; what it holds does not matter.
 * ANSWER     the refusal; NEGWAFIR_DONE at place 0 if there is none.
 * REFUSALS   12  the slope unit is not in 0 to 8; place 0
 *             1  the lists' lengths differ; place 0
 *             2  fewer than 2 or more than 1024 points; place 0
 *             3  a width is not in 1 to 1024; place: the first such piece
 *             4  a rise is outside its limits; place: the first such piece
 * LISTS      none is changed.
 */
negwafir_refusal negwafir_points(uint32_t s, const int32_t *knots, size_t knots_length,
                                 const int32_t *values, size_t values_length,
                                 const int32_t *slopes, size_t slopes_length);

/*
 * negwafir_build
 *
 * PURPOSE    Makes the slopes of a table out of its points, so that every piece is monotone: by
 *            Fritsch and Butland's mean at inner points, 0 where the pieces beside one do not both
 *            rise or both fall; and at the two ends by PCHIM's end rule: for an end piece of width
 *            h1 and rise z1 and its neighbour of width h2 and rise z2,
 *            ((2 h1 + h2) z1/h1 - h1 z2/h2)/(h1 + h2), but 0 where that goes against z1 or z1 is
 *            0, and no more than three times z1/h1. Two points alone have the slope of their
 *            piece. All are rounded toward 0, to whole units.
 * ARGUMENTS  s  the slope unit that the slopes shall have.
 *            knots, values  the points.
 *            slopes  takes the slopes, and is as long as the others. What it holds before does not
 *            matter.
 * ANSWER     the refusal; NEGWAFIR_DONE at place 0 once the slopes are written.
 * REFUSALS   12  the slope unit is not in 0 to 8; place 0
 *             1  the lists' lengths differ; place 0
 *             2  fewer than 2 or more than 1024 points; place 0
 *             3  a width is not in 1 to 1024; place: the first such piece
 *             4  a rise is outside its limits; place: the first such piece
 * LISTS      slopes: every entry is written; if refused, unchanged.
 *            knots, values: unchanged.
 */
negwafir_refusal negwafir_build(uint32_t s, const int32_t *knots, size_t knots_length,
                                const int32_t *values, size_t values_length,
                                int32_t *slopes, size_t slopes_length);

/*
 * negwafir_check
 *
 * PURPOSE    Checks a whole table, with the slopes that it has, whoever proposed them: whether
 *            every piece is monotone.
 * ARGUMENTS  s  the table's slope unit.
 *            knots, values, slopes  the table.
 * ANSWER     the refusal; NEGWAFIR_DONE at place 0 if there is none.
 * REFUSALS   12  the slope unit is not in 0 to 8; place 0
 *             1  the lists' lengths differ; place 0
 *             2  fewer than 2 or more than 1024 points; place 0
 *             3  a width is not in 1 to 1024; place: the first such piece
 *             4  a rise is outside its limits; place: the first such piece
 *             5  a piece is not monotone; place: the first such piece
 * LISTS      none is changed.
 */
negwafir_refusal negwafir_check(uint32_t s, const int32_t *knots, size_t knots_length,
                                const int32_t *values, size_t values_length,
                                const int32_t *slopes, size_t slopes_length);

/*
 * negwafir_changed_points
 *
 * PURPOSE    Says whether a point could be changed, and changes nothing: the answer is that of
 *            negwafir_change_point.
 * ARGUMENTS  s  the table's slope unit.
 *            knots, values  the points as they are.
 *            slopes  as long as the others; what it holds does not matter.
 *            change  the point's number, from 0, and the knot and the value that it would have.
 * ANSWER     the refusal; NEGWAFIR_DONE at place 0 if there is none.
 * REFUSALS   12  the slope unit is not in 0 to 8; place 0
 *             1  the lists' lengths differ; place 0
 *             2  fewer than 2 or more than 1024 points; place 0
 *             7  no point with this number; place 0
 *             3  a width is not in 1 to 1024, after the change; place: the first such piece
 *             4  a rise is outside its limits, after the change; place: the first such piece
 * LISTS      none is changed.
 */
negwafir_refusal negwafir_changed_points(uint32_t s, const int32_t *knots, size_t knots_length,
                                         const int32_t *values, size_t values_length,
                                         const int32_t *slopes, size_t slopes_length,
                                         negwafir_change change);

/*
 * negwafir_change_point
 *
 * PURPOSE    Gives one point a new knot and a new value, and renews the slopes that depend on it.
 *            After a build that is done and any number of changes with the same s, refused ones among
 *            them, the slopes are those that a build with it would make.
 * ARGUMENTS  s  the table's slope unit, in which slopes are renewed.
 *            knots, values, slopes  the table. Its slopes are not judged; negwafir_check does that.
 *            change  the point's number, from 0, and the knot and the value that it shall have.
 * ANSWER     the refusal; NEGWAFIR_DONE at place 0 once the change is made.
 * REFUSALS   12  the slope unit is not in 0 to 8; place 0
 *             1  the lists' lengths differ; place 0
 *             2  fewer than 2 or more than 1024 points; place 0
 *             7  no point with this number; place 0
 *             3  a width is not in 1 to 1024, after the change; place: the first such piece
 *             4  a rise is outside its limits, after the change; place: the first such piece
 * LISTS      knots, values: the point's entry is written.
 *            slopes: the point's entry and those of the points beside it, where there are such, are
 *            those of a build of the new points; and so is, with point 2, entry 0, and, with the
 *            third point from the end, the last entry.
 *            Every other entry is unchanged; if refused, every entry.
 */
negwafir_refusal negwafir_change_point(uint32_t s, int32_t *knots, size_t knots_length,
                                       int32_t *values, size_t values_length,
                                       int32_t *slopes, size_t slopes_length,
                                       negwafir_change change);

/* ==== Positions and pieces ==== */

/*
 * negwafir_evaluate
 *
 * PURPOSE    Says where the arm is at a count of the conveyor. The answer is the exact value,
 *            rounded to the nearest whole number, a half going up, for rising and falling pieces
 *            alike; it lies between the values of the two points beside the position, and at a knot
 *            it is the value there. The whole table is checked first, in every call.
 * ARGUMENTS  s  the table's slope unit.
 *            knots, values, slopes  the table.
 *            position  a count, from the first knot to the last.
 * ANSWER     the refusal and the value; the value is 0 if refused.
 * REFUSALS   12  the slope unit is not in 0 to 8; place 0
 *             1  the lists' lengths differ; place 0
 *             2  fewer than 2 or more than 1024 points; place 0
 *             3  a width is not in 1 to 1024; place: the first such piece
 *             4  a rise is outside its limits; place: the first such piece
 *             5  a piece is not monotone; place: the first such piece
 *             6  position before the first or after the last knot; place 0
 * LISTS      none is changed.
 */
negwafir_value negwafir_evaluate(uint32_t s, const int32_t *knots, size_t knots_length,
                                 const int32_t *values, size_t values_length,
                                 const int32_t *slopes, size_t slopes_length,
                                 int32_t position);

/*
 * negwafir_float_answer
 *
 * PURPOSE    Tells the drive where the arm is at a count of the conveyor, and rounds nothing: on a
 *            piece without a rise to dwell at its level, on any other to move to left + numerator /
 *            denominator. The whole table is checked first, in every call.
 * ARGUMENTS  s  the table's slope unit.
 *            knots, values, slopes  the table.
 *            position  a count, from the first knot to the last. At an inner knot the piece that
 *            starts there answers.
 * ANSWER     the refusal, the kind (NEGWAFIR_DWELL or NEGWAFIR_MOVE) and the three floats. A move
 *            has the left value, and 2^s times the width cubed as its denominator. If refused: a
 *            dwell at +0.
 * REFUSALS   12  the slope unit is not in 0 to 8; place 0
 *             1  the lists' lengths differ; place 0
 *             2  fewer than 2 or more than 1024 points; place 0
 *             3  a width is not in 1 to 1024; place: the first such piece
 *             4  a rise is outside its limits; place: the first such piece
 *             5  a piece is not monotone; place: the first such piece
 *             6  position before the first or after the last knot; place 0
 *             8  piece too large for the exact float answer: the size of its rise times its width
 *                cubed is above NEGWAFIR_EXACT; place: the position's piece
 * LISTS      none is changed.
 */
negwafir_told negwafir_float_answer(uint32_t s, const int32_t *knots, size_t knots_length,
                                    const int32_t *values, size_t values_length,
                                    const int32_t *slopes, size_t slopes_length,
                                    int32_t position);

/*
 * negwafir_locate
 *
 * PURPOSE    Says to which piece a position belongs: at an inner knot to the piece that starts there,
 *            at the last knot to the last piece. The whole table is checked first, in every call.
 * ARGUMENTS  s  the table's slope unit.
 *            knots, values, slopes  the table.
 *            position  a count, from the first knot to the last.
 * ANSWER     the refusal and the piece; the piece is 0 if refused.
 * REFUSALS   12  the slope unit is not in 0 to 8; place 0
 *             1  the lists' lengths differ; place 0
 *             2  fewer than 2 or more than 1024 points; place 0
 *             3  a width is not in 1 to 1024; place: the first such piece
 *             4  a rise is outside its limits; place: the first such piece
 *             5  a piece is not monotone; place: the first such piece
 *             6  position before the first or after the last knot; place 0
 * LISTS      none is changed.
 */
negwafir_place negwafir_locate(uint32_t s, const int32_t *knots, size_t knots_length,
                               const int32_t *values, size_t values_length,
                               const int32_t *slopes, size_t slopes_length,
                               int32_t position);

/*
 * negwafir_judge
 *
 * PURPOSE    Judges one piece alone.
 * ARGUMENTS  s  the slope unit.
 *            h  its width.
 *            z  its rise.
 *            m, n  its left and its right slope, in 1/2^s of a value per count.
 * ANSWER     the refusal and the verdict: NEGWAFIR_RISING, NEGWAFIR_FALLING or NEGWAFIR_FLAT for a
 *            monotone piece, NEGWAFIR_BENDS for any other; NEGWAFIR_NONE if refused.
 * REFUSALS   12  the slope unit is not in 0 to 8; place 0
 *             3  a width is not in 1 to 1024; place 0
 *             4  a rise is outside its limits; place 0
 * LISTS      it has none.
 */
negwafir_judgement negwafir_judge(uint32_t s, int64_t h, int64_t z, int32_t m, int32_t n);

/* ==== Numbers ==== */

/*
 * negwafir_difference
 *
 * PURPOSE    Subtracts two knots, or two values, without wrapping.
 * ARGUMENTS  left, right  any two numbers.
 * ANSWER     right minus left.
 * REFUSALS   none
 * LISTS      it has none.
 */
int64_t negwafir_difference(int32_t left, int32_t right);

/*
 * negwafir_between
 *
 * PURPOSE    Says whether a number lies between two others. Both ends belong to it.
 * ARGUMENTS  low, x, high  any three numbers.
 * ANSWER     true exactly if low <= x and x <= high.
 * REFUSALS   none
 * LISTS      it has none.
 */
bool negwafir_between(int64_t low, int64_t x, int64_t high);

/*
 * negwafir_floor_div
 *
 * PURPOSE    Divides and rounds down, also where the quotient is negative.
 * ARGUMENTS  n  what is divided.
 *            d  what it is divided by.
 * ANSWER     the largest whole number that is not above n / d; 0 for a d below 1.
 * REFUSALS   none
 * LISTS      it has none.
 */
int64_t negwafir_floor_div(int64_t n, int64_t d);

/*
 * negwafir_nearest_div
 *
 * PURPOSE    Divides and rounds to the nearest whole number, a half going up, also where the quotient
 *            is negative. So negwafir_evaluate rounds: where there is a float answer, the value is its
 *            left value plus this quotient of its numerator and denominator.
 * ARGUMENTS  n  what is divided.
 *            d  what it is divided by.
 * ANSWER     the whole number nearest to n / d, and of two that are as near the upper one; 0 for a d
 *            below 1.
 * REFUSALS   none
 * LISTS      it has none.
 */
int64_t negwafir_nearest_div(int64_t n, int64_t d);

/*
 * negwafir_unit_within
 *
 * PURPOSE    Says whether a table may have this slope unit.
 * ARGUMENTS  s  a slope unit: slopes in 1/2^s of a value per count.
 * ANSWER     true exactly if it is in 0 to 8.
 * REFUSALS   none
 * LISTS      it has none.
 */
bool negwafir_unit_within(uint32_t s);

/*
 * negwafir_count_within
 *
 * PURPOSE    Says whether a table may have so many points.
 * ARGUMENTS  n  a number of points.
 * ANSWER     true exactly if it is in 2 to 1024.
 * REFUSALS   none
 * LISTS      it has none.
 */
bool negwafir_count_within(size_t n);

/*
 * negwafir_width_within
 *
 * PURPOSE    Says whether a piece may be so wide.
 * ARGUMENTS  h  a width.
 * ANSWER     true exactly if it is in 1 to 1024.
 * REFUSALS   none
 * LISTS      it has none.
 */
bool negwafir_width_within(int64_t h);

/*
 * negwafir_rise_within
 *
 * PURPOSE    Says whether a piece may rise, or fall, by so much.
 * ARGUMENTS  z  a rise; below 0, a fall.
 * ANSWER     true exactly if it is in -1048576 to 1048576.
 * REFUSALS   none
 * LISTS      it has none.
 */
bool negwafir_rise_within(int64_t z);

/* ==== Text ====
 * Words out of lines of bytes, and whole decimal numbers out of words and into them. Positions are
 * counted from 0, and any may be given, also one behind the end of the bytes. A space or a tab
 * separates words; every other byte belongs to one. No text has to end in a 0 byte. Text in chars is
 * given as (const uint8_t *)text.
 */

/*
 * negwafir_find
 *
 * PURPOSE    Finds a byte.
 * ARGUMENTS  bytes  where it is looked for.
 *            from  the first position that is looked at.
 *            byte  what is looked for.
 * ANSWER     the first position, from or after it, that holds the byte; where none does the length,
 *            or from if that is larger.
 * REFUSALS   none
 * LISTS      bytes: unchanged.
 */
size_t negwafir_find(const uint8_t *bytes, size_t bytes_length, size_t from, uint8_t byte);

/*
 * negwafir_content
 *
 * PURPOSE    Leaves out the one CR that may end a line.
 * ARGUMENTS  line  a line, without its LF.
 * ANSWER     how many bytes, from the first on, the line has without it.
 * REFUSALS   none
 * LISTS      line: unchanged.
 */
size_t negwafir_content(const uint8_t *line, size_t line_length);

/*
 * negwafir_append
 *
 * PURPOSE    Puts bytes behind those that a buffer holds, as far as there is room. What finds no
 *            room is left out, so that an answer below the buffer's length says that all is there. An
 *            answer that is the length does not say so: lend a byte more than is needed.
 * ARGUMENTS  into  the buffer.
 *            held  how many bytes it holds, from the first on; above its length, as many as that.
 *            more  what is put behind them.
 * ANSWER     how many bytes it holds then, at most its length.
 * REFUSALS   none
 * LISTS      into: the entries from held up to the answer are written, the others unchanged.
 *            more: unchanged.
 */
size_t negwafir_append(uint8_t *into, size_t into_length, size_t held,
                       const uint8_t *more, size_t more_length);

/*
 * negwafir_next_word
 *
 * PURPOSE    Finds the next word of a line.
 * ARGUMENTS  line  the line.
 *            from  the first position that is looked at; inside a word, the rest of it is found.
 * ANSWER     found, where it starts, and the position behind its last byte; or not found, 0 and 0.
 * REFUSALS   none
 * LISTS      line: unchanged.
 */
negwafir_span negwafir_next_word(const uint8_t *line, size_t line_length, size_t from);

/*
 * negwafir_count_words
 *
 * PURPOSE    Counts the words of a line.
 * ARGUMENTS  line  the line.
 *            from  the first position that is looked at; inside a word, the rest of it counts.
 * ANSWER     how many words there are from there on.
 * REFUSALS   none
 * LISTS      line: unchanged.
 */
size_t negwafir_count_words(const uint8_t *line, size_t line_length, size_t from);

/*
 * negwafir_part
 *
 * PURPOSE    Says how much of a part of a line is there.
 * ARGUMENTS  line  the line.
 *            start  the part's first position.
 *            end  the position behind its last.
 * ANSWER     how many bytes the line has from start up to end; 0 if there are none. If there are any
 *            they begin at line + start.
 * REFUSALS   none
 * LISTS      line: unchanged.
 */
size_t negwafir_part(const uint8_t *line, size_t line_length, size_t start, size_t end);

/*
 * negwafir_whole
 *
 * PURPOSE    Reads a number of 64 bits, exactly or not at all.
 * ARGUMENTS  text  the whole number's text: one or more digits, behind a '-' if it is negative. Zeros
 *            in front are read, and -0 is 0; a '+', a space, or no digit is none.
 * ANSWER     the kind (NEGWAFIR_WHOLE, NEGWAFIR_NOT_DECIMAL or NEGWAFIR_TOO_LARGE) and the value,
 *            which is 0 unless the kind is NEGWAFIR_WHOLE.
 * REFUSALS   none
 * LISTS      text: unchanged.
 */
negwafir_read negwafir_whole(const uint8_t *text, size_t text_length);

/*
 * negwafir_whole32
 *
 * PURPOSE    Reads a number of 32 bits, exactly or not at all.
 * ARGUMENTS  text  the whole number's text: one or more digits, behind a '-' if it is negative. Zeros
 *            in front are read, and -0 is 0; a '+', a space, or no digit is none.
 * ANSWER     the kind (NEGWAFIR_WHOLE, NEGWAFIR_NOT_DECIMAL or NEGWAFIR_TOO_LARGE) and the value,
 *            which is 0 unless the kind is NEGWAFIR_WHOLE.
 * REFUSALS   none
 * LISTS      text: unchanged.
 */
negwafir_read32 negwafir_whole32(const uint8_t *text, size_t text_length);

/*
 * negwafir_append_natural
 *
 * PURPOSE    Writes a number that is not negative behind the bytes that a buffer holds, as
 *            negwafir_append does. It has at most 20 digits, and but for 0 itself no 0 in front.
 * ARGUMENTS  into  the buffer.
 *            held  how many bytes it holds, from the first on; above its length, as many as that.
 *            n  the number.
 * ANSWER     how many bytes it holds then, at most its length. A number that finds too little room
 *            is cut, and what is left may read as another number.
 * REFUSALS   none
 * LISTS      into: the entries from held up to the answer are written, the others unchanged.
 */
size_t negwafir_append_natural(uint8_t *into, size_t into_length, size_t held, uint64_t n);

/*
 * negwafir_append_whole
 *
 * PURPOSE    Writes a number of 64 bits behind the bytes that a buffer holds, as negwafir_append
 *            does. It has at most 20 bytes, a '-' among them if it is negative, and but for 0
 *            itself no 0 in front.
 * ARGUMENTS  into  the buffer.
 *            held  how many bytes it holds, from the first on; above its length, as many as that.
 *            n  the number.
 * ANSWER     how many bytes it holds then, at most its length. A number that finds too little room
 *            is cut, and what is left may read as another number.
 * REFUSALS   none
 * LISTS      into: the entries from held up to the answer are written, the others unchanged.
 */
size_t negwafir_append_whole(uint8_t *into, size_t into_length, size_t held, int64_t n);

/*
 * negwafir_append_whole32
 *
 * PURPOSE    Writes a number of 32 bits behind the bytes that a buffer holds, as negwafir_append
 *            does. It has at most 11 bytes, a '-' among them if it is negative, and but for 0
 *            itself no 0 in front.
 * ARGUMENTS  into  the buffer.
 *            held  how many bytes it holds, from the first on; above its length, as many as that.
 *            n  the number.
 * ANSWER     how many bytes it holds then, at most its length. A number that finds too little room
 *            is cut, and what is left may read as another number.
 * REFUSALS   none
 * LISTS      into: the entries from held up to the answer are written, the others unchanged.
 */
size_t negwafir_append_whole32(uint8_t *into, size_t into_length, size_t held, int32_t n);

#ifdef __cplusplus
}
#endif

#endif
