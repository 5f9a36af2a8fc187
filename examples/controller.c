/*
 * An example controller: from the five points of a picker's table to a moving arm.
 *
 *     cc controller.c $(pkg-config --cflags --libs negwafir) -o controller
 *
 * The arm goes down to the tray, stays there, and lifts what it has picked.
 */
#include <inttypes.h>
#include <negwafir.h>
#include <stdio.h>

#define POINTS 5

/* The slopes are in 1/256 of a value per count, the finest unit. It belongs to the table: every call over it is given the same. */
#define UNIT NEGWAFIR_MOST_UNIT

static int32_t knots[POINTS] = {0, 4, 8, 10, 16};
static int32_t values[POINTS] = {0, -40, -40, -25, 0};
static int32_t slopes[POINTS];

static const char *cause(uint32_t number) {
    switch (number) {
    case NEGWAFIR_DONE: return "done";
    case NEGWAFIR_LENGTHS: return "the lists' lengths differ";
    case NEGWAFIR_COUNT: return "fewer than 2 or more than 1024 points";
    case NEGWAFIR_WIDTH: return "a width is not in 1 to 1024";
    case NEGWAFIR_RISE: return "a rise is outside its limits";
    case NEGWAFIR_BEND: return "a piece is not monotone";
    case NEGWAFIR_POSITION: return "position before the first or after the last knot";
    case NEGWAFIR_POINT: return "no point with this number";
    case NEGWAFIR_SIZE: return "piece too large for the exact float answer";
    case NEGWAFIR_SLOPE_UNIT: return "the slope unit is not in 0 to 8";
    default: return "no such refusal";
    }
}

/* Every call answers a refusal; a controller goes on only where its number is NEGWAFIR_DONE. */
static bool done(const char *what, negwafir_refusal refusal) {
    if (refusal.number == NEGWAFIR_DONE) {
        printf("%s: done\n", what);
        return true;
    }
    printf("%s: refused %" PRIu32 " at %zu: %s\n", what, refusal.number, refusal.place, cause(refusal.number));
    return false;
}

static void show_slopes(void) {
    size_t i;
    printf("slopes:");
    for (i = 0; i < POINTS; i++)
        printf(" %" PRId32, slopes[i]);
    printf("\n");
}

/* Where the arm is at each count of the conveyor. */
static void move_arm(void) {
    int32_t position;
    printf("position,value\n");
    for (position = knots[0]; position <= knots[POINTS - 1]; position++) {
        negwafir_value at = negwafir_evaluate(UNIT, knots, POINTS, values, POINTS, slopes, POINTS, position);
        if (at.refusal.number != NEGWAFIR_DONE) {
            done("evaluate", at.refusal);
            return;
        }
        printf("%" PRId32 ",%" PRId32 "\n", position, at.value);
    }
}

/* The drive takes floats, and does the division itself. */
static void tell_drive(int32_t position) {
    negwafir_told told = negwafir_float_answer(UNIT, knots, POINTS, values, POINTS, slopes, POINTS, position);
    if (told.refusal.number != NEGWAFIR_DONE)
        done("drive", told.refusal);
    else if (told.kind == NEGWAFIR_DWELL)
        printf("drive at %" PRId32 ": dwell at %.4f\n", position, told.left);
    else
        printf("drive at %" PRId32 ": move to %.0f + %.0f / %.0f = %.4f\n", position, told.left, told.numerator, told.denominator,
               told.left + told.numerator / told.denominator);
}

/* A point gets a new knot and value, and the slopes that depend on it are renewed. */
static void change_point(size_t point, int32_t knot, int32_t value) {
    negwafir_change change = {0, 0, 0};
    change.point = point;
    change.knot = knot;
    change.value = value;
    done("change", negwafir_change_point(UNIT, knots, POINTS, values, POINTS, slopes, POINTS, change));
    show_slopes();
}

/* Slopes from elsewhere, in the same unit, over our points: one of them is too steep for the piece on its left. */
static void judge_supplier(void) {
    static const int32_t theirs[POINTS] = {-2560, 0, 0, 6000, 1066};
    done("supplier's slopes", negwafir_check(UNIT, knots, POINTS, values, POINTS, theirs, POINTS));
}

/* Two knots at opposite ends of 32 bits: their difference would wrap to a width of 1. */
static void build_far_knots(void) {
    static const int32_t far_knots[2] = {INT32_MAX, INT32_MIN}, level[2] = {0, 0};
    int32_t room[2] = {0, 0};
    done("far knots", negwafir_build(UNIT, far_knots, 2, level, 2, room, 2));
}

int main(void) {
    if (!done("build", negwafir_build(UNIT, knots, POINTS, values, POINTS, slopes, POINTS)))
        return 1;
    show_slopes();
    if (!done("check", negwafir_check(UNIT, knots, POINTS, values, POINTS, slopes, POINTS)))
        return 1;
    move_arm();
    tell_drive(1);
    tell_drive(6);
    tell_drive(17);
    judge_supplier();
    change_point(3, 11, -20);
    change_point(3, 8, -20);
    change_point(POINTS, 20, 0);
    build_far_knots();
    return 0;
}
