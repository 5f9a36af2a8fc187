/* Knots and values at random, by kind, and slopes that are accepted with them. */
#include "tables.h"

int64_t dice(int64_t low, int64_t high)
{
    static uint64_t state = 88172645463325252u;
    state ^= state << 13;
    state ^= state >> 7;
    state ^= state << 17;
    return low + (int64_t)(state % (uint64_t)(high - low + 1));
}

/* The way of piece i: 1 up, -1 down, 0 level. */
static int64_t way_at(size_t i, int64_t before, kind_of_table kind)
{
    switch (kind) {
    case RUNS:
        return i % 32 == 0 ? dice(-1, 1) : before;
    case MIXED:
        return dice(-1, 1);
    case LEVEL:
        return 0;
    case FALLING:
        return -1;
    case SAW:
        return i % 2 == 0 ? 1 : -1;
    default:
        return 1;
    }
}

static void fill_built_table(table t, size_t length, kind_of_table kind)
{
    int64_t knot = dice(-1000, 1000), value = dice(-1000, 1000), way = 0;
    for (size_t i = 0; i < length; i++) {
        t.knots[i] = (int32_t)knot;
        t.values[i] = (int32_t)value;
        way = way_at(i, way, kind);
        knot += dice(1, 200);
        value += way * dice(1, 5000);
    }
    reference_build(NEGWAFIR_MOST_UNIT, t.knots, length, t.values, length, t.slopes, length);
}

/* All points on one line, and each slope three times that of the line: the last test decides each piece, and just accepts it. */
static void fill_steep_table(table t, size_t length)
{
    int64_t knot = dice(-1000, 1000), secant = dice(1, 20) * (dice(0, 1) ? 1 : -1);
    for (size_t i = 0; i < length; i++) {
        t.knots[i] = (int32_t)knot;
        t.values[i] = (int32_t)(secant * knot);
        t.slopes[i] = (int32_t)(3 * (1 << NEGWAFIR_MOST_UNIT) * secant);
        knot += dice(1, 200);
    }
}

void fill_table(table t, size_t length, kind_of_table kind)
{
    if (kind == STEEP)
        fill_steep_table(t, length);
    else
        fill_built_table(t, length, kind);
}
