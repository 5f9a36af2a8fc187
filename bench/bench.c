/* Sees that each function of Negwafir and its reference answer alike, of accepted and of refused tables; then times the two in turn, on
   the same input and in the same run, and prints the ratios. */
#include <stdio.h>
#include <stdlib.h>
#include <string.h>
#include <time.h>

#include "tables.h"

/* Every size of table has the same number of points in all, so that no size is easier for the processor to foresee than another. */
enum { POINTS = 32768, ROUNDS = 41, SIZES = 3, KINDS = STEEP + 1 };

static const size_t sizes[SIZES] = {16, 128, LARGEST};
static const char *const kinds[KINDS] = {"rising", "runs", "mixed", "steep"};

typedef struct {
    int64_t h, z;
    int32_t m, n;
} piece;

static int32_t all[KINDS][SIZES][3][POINTS];
static uint16_t sought[SIZES][POINTS]; /* pieces at random, of tables of each size */
static piece pieces[POINTS];
static uint32_t unit = NEGWAFIR_MOST_UNIT; /* of the tables that calls are about: what is timed has 8, but for the last rows */
static kind_of_table kind; /* of these tables */
static size_t size, length;
static size_t turn; /* how often they have been gone over */
static bool follow; /* one table is asked alone, count by count, as an arm follows it; else each in turn, at a position at random */
static int32_t reached; /* the count of the arm that follows */

static void choose(kind_of_table some_kind, size_t some_size)
{
    kind = some_kind;
    size = some_size;
    length = sizes[size];
}

static table table_at(size_t start)
{
    int32_t(*lists)[POINTS] = all[kind][size];
    return (table){lists[0] + start, lists[1] + start, lists[2] + start};
}

#define LISTS unit, t.knots, length, t.values, length, t.slopes, length

/* ---- the input */

/* The pieces of mixed tables, some with a slope that is too steep, and some too wide. */
static void fill_pieces(void)
{
    choose(MIXED, SIZES - 1);
    for (size_t j = 0; j < POINTS; j++) {
        table t = table_at(j % length == length - 1 ? j - 1 : j);
        piece *p = &pieces[j];
        p->h = (int64_t)t.knots[1] - t.knots[0];
        p->z = (int64_t)t.values[1] - t.values[0];
        p->m = dice(0, 15) == 0 ? (int32_t)(1100 * p->z / p->h) : t.slopes[0];
        p->n = t.slopes[1];
        if (dice(0, 31) == 0)
            p->h += 1024;
    }
}

static void fill_sought(void)
{
    for (size_t s = 0; s < SIZES; s++)
        for (size_t j = 0; j < POINTS; j++)
            sought[s][j] = (uint16_t)dice(0, (int64_t)sizes[s] - 2);
}

/* Another one in each turn, so that the processor cannot learn the way to its piece by heart. */
static int32_t position_in(table t, size_t start)
{
    if (follow)
        return reached = reached < t.knots[length - 1] ? reached + 1 : t.knots[0];
    return t.knots[sought[size][(turn * (POINTS / length) + start / length) % POINTS]] + 1;
}

/* Up by one and down again in turn, so that the table stays within its limits however often it is changed. */
static negwafir_change change_in(table t, size_t start)
{
    size_t k = (start / length * 53 + 7) % length;
    return (negwafir_change){k, t.knots[k], t.values[k] ^ 1};
}

/* ---- before anything is timed: that the two answer alike and leave the same lists */

static size_t refused[NEGWAFIR_SLOPE_UNIT + 1]; /* how often each refusal was seen */

static void want(bool so, const char *what)
{
    if (!so) {
        fprintf(stderr, "bench: %s of %zu points, %s, unit %u: the two do not answer alike\n", what, length, kinds[kind], (unsigned)unit);
        exit(1);
    }
}

static bool same_refusal(negwafir_refusal a, negwafir_refusal b)
{
    if (a.number <= NEGWAFIR_SLOPE_UNIT)
        refused[a.number]++;
    return a.number == b.number && a.place == b.place;
}

static bool same_place(negwafir_place a, negwafir_place b)
{
    return same_refusal(a.refusal, b.refusal) && a.piece == b.piece;
}

static bool same_value(negwafir_value a, negwafir_value b)
{
    return same_refusal(a.refusal, b.refusal) && a.value == b.value;
}

static bool same_told(negwafir_told a, negwafir_told b)
{
    return same_refusal(a.refusal, b.refusal) && a.kind == b.kind && a.left == b.left && a.numerator == b.numerator &&
           a.denominator == b.denominator;
}

/* A copy of a table that a call may spoil, with lists that are longer than any that is taken. */
typedef struct {
    int32_t knots[LARGEST + 1], values[LARGEST + 1], slopes[LARGEST + 1];
} copy;

static table lists_of(copy *c)
{
    return (table){c->knots, c->values, c->slopes};
}

/* A slope in 1/256 in the present unit, rounded toward zero: so a built one becomes the one that a build makes there. */
static int32_t in_units(int32_t slope)
{
    return unit <= NEGWAFIR_MOST_UNIT ? slope / (1 << (NEGWAFIR_MOST_UNIT - unit)) : slope;
}

static void copy_table(copy *c, table t)
{
    memset(c, 0, sizeof *c);
    memcpy(c->knots, t.knots, length * sizeof *t.knots);
    memcpy(c->values, t.values, length * sizeof *t.values);
    for (size_t i = 0; i < length; i++)
        c->slopes[i] = in_units(t.slopes[i]);
}

static void compare_changes(const copy *c, negwafir_change change)
{
    static copy ours, theirs;
    ours = theirs = *c;
    table t = lists_of(&ours), u = lists_of(&theirs);
    want(same_refusal(negwafir_change_point(LISTS, change),
                      reference_change_point(unit, u.knots, length, u.values, length, u.slopes, length, change)), "change");
    want(memcmp(&ours, &theirs, sizeof ours) == 0, "lists after a change");
}

static void compare_builds(const copy *c)
{
    static copy ours, theirs;
    ours = theirs = *c;
    table t = lists_of(&ours), u = lists_of(&theirs);
    want(same_refusal(negwafir_build(LISTS), reference_build(unit, u.knots, length, u.values, length, u.slopes, length)), "build");
    want(memcmp(&ours, &theirs, sizeof ours) == 0, "lists after a build");
}

static void compare_answers(copy *c, int32_t position, negwafir_change change)
{
    table t = lists_of(c);
    want(same_refusal(negwafir_check(LISTS), reference_check(LISTS)), "check");
    want(same_place(negwafir_locate(LISTS, position), reference_locate(LISTS, position)), "locate");
    want(same_value(negwafir_evaluate(LISTS, position), reference_evaluate(LISTS, position)), "evaluation");
    want(same_told(negwafir_float_answer(LISTS, position), reference_float_answer(LISTS, position)), "float answer");
    compare_changes(c, change);
    compare_builds(c);
}

/* Just within a limit, just beyond it, and far from it. */
static int64_t about(int64_t limit)
{
    int64_t size_of_it = dice(0, 3) == 0 ? dice(0, 4 * limit) : limit + dice(-1, 1);
    return dice(0, 1) ? size_of_it : -size_of_it;
}

static int32_t fitted(int64_t x)
{
    return x < INT32_MIN ? INT32_MIN : x > INT32_MAX ? INT32_MAX : (int32_t)x;
}

static int32_t any_number(void)
{
    return (int32_t)(dice(0, 1) ? dice(INT32_MIN, INT32_MAX) : dice(-2000000, 2000000));
}

/* Gives the piece before a point another width or rise, and moves what comes behind along, so that the other pieces stay as they are. */
static void stretch(int32_t *list, size_t at, int64_t by)
{
    int64_t moved = by - ((int64_t)list[at] - list[at - 1]);
    for (size_t i = at; i < length; i++)
        list[i] = fitted(list[i] + moved);
}

/* One fault, or nearly one. */
static void spoil(table t)
{
    size_t at = (size_t)dice(1, (int64_t)length - 1);
    switch (dice(0, 5)) {
    case 0:
        stretch(t.knots, at, about(NEGWAFIR_MOST_WIDTH));
        break;
    case 1:
        stretch(t.values, at, about(NEGWAFIR_MOST_RISE));
        break;
    case 2:
        t.slopes[at] = fitted(dice(-1, 5) * t.slopes[at] + dice(-1, 1));
        break;
    case 3:
        t.knots[at] = any_number();
        break;
    case 4:
        t.values[at] = any_number();
        break;
    default:
        t.slopes[at] = any_number();
    }
}

static negwafir_change some_change(table t)
{
    size_t k = (size_t)dice(0, (int64_t)length);
    if (k == length || dice(0, 3) == 0)
        return (negwafir_change){k, any_number(), any_number()};
    return (negwafir_change){k, fitted(t.knots[k] + dice(-300, 300)), fitted(t.values[k] + about(NEGWAFIR_MOST_RISE))};
}

/* At some unit, or at one that is refused. */
static void compare_spoilt(table from)
{
    static copy c;
    unit = (uint32_t)dice(0, NEGWAFIR_MOST_UNIT + 1);
    copy_table(&c, from);
    table t = lists_of(&c);
    for (int64_t faults = dice(0, 3); faults > 0; faults--)
        spoil(t);
    int32_t first = t.knots[0], last = t.knots[length - 1];
    int32_t position = dice(0, 3) == 0 || last < first ? any_number() : (int32_t)dice(first, last);
    compare_answers(&c, position, some_change(t));
    unit = NEGWAFIR_MOST_UNIT;
}

/* Lists of any lengths around the limits, each list's own, at a unit that is taken and at one that is not. */
static void compare_lengths(void)
{
    static const size_t some[] = {0, 1, 2, 3, LARGEST, LARGEST + 1};
    static copy c;
    choose(RISING, SIZES - 1);
    copy_table(&c, table_at(0));
    for (size_t i = 0; i < 2 * 6 * 6 * 6; i++) {
        size_t k = some[i % 6], v = some[i / 6 % 6], m = some[i / 36 % 6];
        unit = i < 6 * 6 * 6 ? NEGWAFIR_MOST_UNIT : NEGWAFIR_MOST_UNIT + 1;
        want(same_refusal(negwafir_check(unit, c.knots, k, c.values, v, c.slopes, m), reference_check(unit, c.knots, k, c.values, v, c.slopes, m)),
             "lengths");
    }
    unit = NEGWAFIR_MOST_UNIT;
}

/* Two points alone, and tables so short that each point is near an end: parts of mixed tables. Their end slopes are those of inner points, so
   that a change that leaves them is seen. */
static void compare_few(void)
{
    static copy c;
    choose(MIXED, SIZES - 1);
    for (length = 2; length <= 8; length++)
        for (size_t start = 0; start + length <= LARGEST; start += length) {
            table t = table_at(start);
            copy_table(&c, t);
            for (size_t k = 0; k < length; k++)
                compare_changes(&c, (negwafir_change){k, t.knots[k], t.values[k] ^ 1});
            compare_spoilt(t);
        }
}

/* Pieces of the largest size, which no float answer takes, and whose end slopes are of the largest products. */
static void compare_large(void)
{
    static copy c = {.knots = {0, 1024, 2048}, .values = {0, 1048576, 0}};
    size_t before = length;
    length = 3;
    compare_builds(&c);
    table t = lists_of(&c);
    reference_build(LISTS);
    compare_answers(&c, 700, (negwafir_change){1, 1024, 1024});
    length = before;
}

static void compare_verdicts(void)
{
    for (size_t j = 0; j < POINTS; j++) {
        piece *p = &pieces[j];
        unit = j % (NEGWAFIR_MOST_UNIT + 2);
        int32_t m = in_units(p->m), n = in_units(p->n);
        negwafir_judgement a = negwafir_judge(unit, p->h, p->z, m, n), b = reference_judge(unit, p->h, p->z, m, n);
        want(same_refusal(a.refusal, b.refusal) && a.verdict == b.verdict, "verdict");
    }
    unit = NEGWAFIR_MOST_UNIT;
}

static void compare_all(void)
{
    static copy c;
    for (kind_of_table k = RISING; k <= STEEP; k++)
        for (size_t s = 0; s < SIZES; s++) {
            choose(k, s);
            for (size_t start = 0; start < POINTS; start += length) {
                table t = table_at(start);
                copy_table(&c, t);
                want(reference_check(LISTS).number == NEGWAFIR_DONE, "a table that is accepted");
                compare_answers(&c, position_in(t, start), change_in(t, start));
                for (size_t i = 0; i < 8; i++)
                    compare_spoilt(t);
            }
        }
    compare_few();
    compare_lengths();
    compare_large();
    compare_verdicts();
    for (size_t number = 0; number <= NEGWAFIR_SLOPE_UNIT; number++)
        if (refused[number] == 0 && (number <= NEGWAFIR_SIZE || number == NEGWAFIR_SLOPE_UNIT)) {
            fprintf(stderr, "bench: no call was answered by %zu, so that nothing was compared\n", number);
            exit(1);
        }
}

/* ---- what is timed: every table, or every piece, once; the sum keeps the compiler from leaving an answer out */

#define OVER_TABLES(name, answer)                                 \
    static uint64_t name(void)                                    \
    {                                                             \
        uint64_t sum = 0;                                         \
        for (size_t start = 0; start < POINTS; start += length) { \
            table t = table_at(follow ? 0 : start);               \
            sum += (uint64_t)(answer);                            \
        }                                                         \
        return sum;                                               \
    }

#define OVER_PIECES(name, judge)                                                            \
    static uint64_t name(void)                                                              \
    {                                                                                       \
        uint64_t sum = 0;                                                                   \
        for (size_t j = 0; j < POINTS; j++)                                                 \
            sum += judge(unit, pieces[j].h, pieces[j].z, pieces[j].m, pieces[j].n).verdict; \
        return sum;                                                                         \
    }

OVER_PIECES(our_judge, negwafir_judge)
OVER_PIECES(their_judge, reference_judge)
OVER_TABLES(our_check, negwafir_check(LISTS).number)
OVER_TABLES(their_check, reference_check(LISTS).number)
OVER_TABLES(our_build, negwafir_build(LISTS).number + t.slopes[1])
OVER_TABLES(their_build, reference_build(LISTS).number + t.slopes[1])
OVER_TABLES(our_change, negwafir_change_point(LISTS, change_in(t, start)).number)
OVER_TABLES(their_change, reference_change_point(LISTS, change_in(t, start)).number)
OVER_TABLES(our_locate, negwafir_locate(LISTS, position_in(t, start)).piece)
OVER_TABLES(their_locate, reference_locate(LISTS, position_in(t, start)).piece)
OVER_TABLES(our_evaluate, negwafir_evaluate(LISTS, position_in(t, start)).value)
OVER_TABLES(their_evaluate, reference_evaluate(LISTS, position_in(t, start)).value)
OVER_TABLES(our_float_answer, (int64_t)negwafir_float_answer(LISTS, position_in(t, start)).numerator)
OVER_TABLES(their_float_answer, (int64_t)reference_float_answer(LISTS, position_in(t, start)).numerator)

/* ---- the clock */

/* The processor's time that went into this program, whatever else the machine did. */
static double now(void)
{
    struct timespec time;
    clock_gettime(CLOCK_PROCESS_CPUTIME_ID, &time);
    return (double)time.tv_sec + 1e-9 * (double)time.tv_nsec;
}

/* Where an arm that follows has come to by then: a round is too short for a long table. */
static int32_t reached_by(size_t turns)
{
    const int32_t *knots = table_at(0).knots;
    return knots[0] + (int32_t)(turns * (POINTS / length) % (size_t)(knots[length - 1] - knots[0]));
}

static double timed(uint64_t (*work)(void), size_t from, size_t times, uint64_t *sum)
{
    reached = reached_by(from);
    *sum = 0;
    double began = now();
    for (turn = from; turn < from + times; turn++)
        *sum += work();
    return now() - began;
}

/* How often, so that a round takes some five thousandths of a second. */
static size_t times_for(uint64_t (*work)(void))
{
    uint64_t sum = 0;
    size_t times = 2;
    while (timed(work, 0, times, &sum) < 0.005)
        times *= 2;
    return times;
}

static int by_size(const void *a, const void *b)
{
    double x = *(const double *)a, y = *(const double *)b;
    return (x > y) - (x < y);
}

static double middle(double *list)
{
    qsort(list, ROUNDS, sizeof *list, by_size);
    return list[ROUNDS / 2];
}

/* Rounds of the two in turn; the middle of their ratios, and of a tenth at each end, so that what else the machine does falls out. */
static void compare(const char *what, uint64_t (*ours)(void), uint64_t (*theirs)(void))
{
    double ratios[ROUNDS], own[ROUNDS];
    size_t times = times_for(theirs), number = ours == our_judge ? POINTS : POINTS / length * (length - 1);
    for (size_t i = 0; i < ROUNDS; i++) {
        uint64_t our_sum = 0, their_sum = 0;
        double our_time = timed(ours, i * times, times, &our_sum), their_time = timed(theirs, i * times, times, &their_sum);
        want(our_sum == their_sum, what);
        own[i] = our_time / (double)times / (double)number * 1e9;
        ratios[i] = our_time / their_time;
    }
    double ratio = middle(ratios);
    printf("| %s | %s%s | %zu | %.2f | %.2f | %.2f to %.2f |\n", what, follow ? "one, followed" : kinds[kind], unit == 0 ? ", s = 0" : "", length,
           middle(own), ratio, ratios[ROUNDS / 10], ratios[ROUNDS - 1 - ROUNDS / 10]);
    fflush(stdout);
}

static void compare_at_positions(void)
{
    compare("locate", our_locate, their_locate);
    compare("evaluation", our_evaluate, their_evaluate);
    compare("float answer", our_float_answer, their_float_answer);
}

/* A build and a change do not look at the slopes, so that steep tables would say nothing of them; and a change would take the slopes away. */
static void compare_kind(void)
{
    compare("check", our_check, their_check);
    compare_at_positions();
    if (kind == STEEP)
        return;
    compare("build", our_build, their_build);
    compare("change", our_change, their_change);
}

/* Mixed tables at the smallest unit, where other numbers are multiplied and divided: their slopes are built anew. */
static void compare_at_unit_0(void)
{
    choose(MIXED, SIZES - 1);
    unit = 0;
    compare("build", our_build, their_build);
    compare("evaluation", our_evaluate, their_evaluate);
}

/* Its argument says what the library is timed beside. */
int main(int count, char **arguments)
{
    for (kind_of_table k = RISING; k <= STEEP; k++)
        for (size_t s = 0; s < SIZES; s++) {
            choose(k, s);
            for (size_t start = 0; start < POINTS; start += length)
                fill_table(table_at(start), length, kind);
        }
    fill_pieces();
    fill_sought();
    compare_all();
    printf("| Call | Tables | Points | Negwafir, ns a piece | Negwafir / %s | A tenth of the rounds below and above |\n|---|---|---|---|---|---|\n",
           count > 1 ? arguments[1] : "C");
    for (kind_of_table k = RISING; k <= STEEP; k++) {
        choose(k, SIZES - 1);
        compare_kind();
    }
    for (size_t s = 0; s + 1 < SIZES; s++) {
        choose(MIXED, s);
        compare_kind();
    }
    choose(MIXED, SIZES - 1);
    compare("one piece's verdict", our_judge, their_judge);
    follow = true;
    for (size_t s = 0; s < SIZES; s++) {
        choose(MIXED, s);
        compare_at_positions();
    }
    follow = false;
    compare_at_unit_0();
    return 0;
}
