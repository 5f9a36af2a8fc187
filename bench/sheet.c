/* The real-time sheet: of each call over a table of the most points, how many instructions it runs, counted one by one, and how many bytes of
   stack it takes. The program runs twice at once: one process makes each call after a stop, and the other makes it too, to know what is
   answered, and leads the first through it step by step. */
#define _DEFAULT_SOURCE
#include <errno.h>
#include <signal.h>
#include <stdio.h>
#include <stdlib.h>
#include <string.h>
#include <sys/ptrace.h>
#include <sys/reg.h>
#include <sys/wait.h>
#include <unistd.h>

#include "tables.h"

enum { PLACES = 6 };
enum { PAINTED = 4096 }; /* bytes below a call that are looked at: several times what is used */

typedef struct {
    int32_t knots[LARGEST], values[LARGEST], slopes[LARGEST];
} copy;

/* Points, and one that is not there. A change of the third from an end renews the most slopes. */
static const size_t places[PLACES] = {0, 2, LARGEST / 2, LARGEST - 3, LARGEST - 1, LARGEST};
static pid_t stepped; /* the process that is led; 0 in itself */
static int32_t position;
static negwafir_change change;

/* ---- the calls, at the unit 8: each answers the number of its refusal. A verdict is on the first piece. */

#define LISTS NEGWAFIR_MOST_UNIT, t.knots, LARGEST, t.values, LARGEST, t.slopes, LARGEST
#define CALL(name, answer)               \
    static uint32_t call_##name(table t) \
    {                                    \
        return (answer);                 \
    }

CALL(check, negwafir_check(LISTS).number)
CALL(points, negwafir_points(LISTS).number)
CALL(build, negwafir_build(LISTS).number)
CALL(change_point, negwafir_change_point(LISTS, change).number)
CALL(changed_points, negwafir_changed_points(LISTS, change).number)
CALL(locate, negwafir_locate(LISTS, position).refusal.number)
CALL(evaluate, negwafir_evaluate(LISTS, position).refusal.number)
CALL(float_answer, negwafir_float_answer(LISTS, position).refusal.number)
CALL(judge, negwafir_judge(NEGWAFIR_MOST_UNIT, (int64_t)t.knots[1] - t.knots[0], (int64_t)t.values[1] - t.values[0], t.slopes[0], t.slopes[1])
                .refusal.number)

/* What a call is given besides the table. */
typedef enum { NOTHING, AT_A_POSITION, WITH_A_CHANGE } also;

typedef struct {
    const char *name;
    uint32_t (*call)(table);
    uintptr_t entry; /* of its code */
    also with;
    long fewest, most, refused_most; /* instructions */
    long stack;
} row;

#define ROW(name, with) {#name, call_##name, (uintptr_t)negwafir_##name, with, 0, 0, 0, 0}

static row rows[] = {
    ROW(check, NOTHING),
    ROW(points, NOTHING),
    ROW(build, NOTHING),
    ROW(change_point, WITH_A_CHANGE),
    ROW(changed_points, WITH_A_CHANGE),
    ROW(locate, AT_A_POSITION),
    ROW(evaluate, AT_A_POSITION),
    ROW(float_answer, AT_A_POSITION),
    ROW(judge, NOTHING),
};

enum { ROWS = sizeof rows / sizeof *rows };

/* ---- the steps */

static void need(bool so, const char *what)
{
    if (!so) {
        fprintf(stderr, "sheet: %s\n", what);
        if (stepped != 0)
            kill(stepped, SIGKILL);
        exit(1);
    }
}

static void await_stop(void)
{
    int status;
    need(waitpid(stepped, &status, 0) == stepped && WIFSTOPPED(status), "a call did not come to its end");
}

static void go_on(int request)
{
    need(ptrace(request, stepped, 0, 0) == 0, "the other process cannot be led");
    await_stop();
}

static uintptr_t its_register(int number)
{
    errno = 0;
    long held = ptrace(PTRACE_PEEKUSER, stepped, sizeof held * (size_t)number, 0);
    need(errno == 0, "the other process cannot be read");
    return (uintptr_t)held;
}

/* Another word at each place: one that a call copies from its own stack is seen where it is written. */
static long paint_at(uintptr_t place)
{
    return (long)(place * UINT64_C(0x9e3779b97f4a7c15));
}

static long word_at(uintptr_t place)
{
    errno = 0;
    long held = ptrace(PTRACE_PEEKDATA, stepped, place, 0);
    need(errno == 0, "the other process cannot be read");
    return held;
}

/* The instructions of the next call of the process that is led, from the first of its own to its return; and its stack, the return address
   among it: down to where the stack pointer comes, or to what is written below it. */
static long instructions_of(uintptr_t entry, long *stack)
{
    go_on(PTRACE_CONT); /* to the stop before the call */
    while (its_register(RIP) != entry)
        go_on(PTRACE_SINGLESTEP);
    uintptr_t top = its_register(RSP);
    for (uintptr_t place = top - PAINTED; place < top; place += sizeof(long))
        need(ptrace(PTRACE_POKEDATA, stepped, place, paint_at(place)) == 0, "the other process cannot be written");
    long count = 0;
    uintptr_t lowest = top;
    for (uintptr_t pointer = top; pointer <= top; pointer = its_register(RSP)) {
        if (pointer < lowest)
            lowest = pointer;
        go_on(PTRACE_SINGLESTEP);
        count++;
    }
    uintptr_t place = top - PAINTED;
    while (place < lowest && word_at(place) == paint_at(place))
        place += sizeof(long);
    *stack = (long)(top + sizeof(long) - place);
    return count;
}

/* Makes a call on a copy of the table, in both processes, and enters what it takes. */
static void enter(row *r, const copy *from)
{
    static copy c;
    c = *from;
    table t = {c.knots, c.values, c.slopes};
    if (stepped == 0) {
        raise(SIGSTOP);
        r->call(t);
        return;
    }
    bool accepted = r->call(t) == NEGWAFIR_DONE;
    long stack, count = instructions_of(r->entry, &stack);
    if (accepted && (r->fewest == 0 || count < r->fewest))
        r->fewest = count;
    long *most = accepted ? &r->most : &r->refused_most;
    if (count > *most)
        *most = count;
    if (stack > r->stack)
        r->stack = stack;
}

/* ---- the tables */

/* Each call over a table: at the first knot, the last, some between and behind the last, and with a change of the point there that changes nothing, or
   of none. Where the table is refused one of them is enough: no position is looked at, and where a change is makes little difference. */
static void enter_all(const copy *c, bool refused)
{
    for (size_t i = 0; i < ROWS; i++) {
        bool once = rows[i].with == NOTHING || refused;
        for (size_t j = 0; j < (once ? 1 : PLACES); j++) {
            size_t k = places[j], there = k < LARGEST ? k : LARGEST - 1;
            position = c->knots[there] + (k != there);
            change = (negwafir_change){k, c->knots[there], c->values[there]};
            enter(&rows[i], c);
        }
    }
}

/* A width that is too large, a rise that is too large, and a bend, each at one of the pieces or nowhere. */
static void spoil(copy *c, const size_t *width, const size_t *rise, const size_t *bend)
{
    for (size_t i = 0; i < LARGEST; i++) {
        if (width != NULL && i > *width)
            c->knots[i] += 1024;
        if (rise != NULL && i > *rise)
            c->values[i] += 1048577 + 5000;
        if (bend != NULL && i == *bend + 1)
            c->slopes[i] = INT32_MIN;
    }
}

/* Every piece too large for the exact float answer. */
static void fill_large(copy *c)
{
    for (size_t i = 0; i < LARGEST; i++) {
        c->knots[i] = 1024 * (int32_t)i;
        c->values[i] = 2000 * (int32_t)i;
    }
    reference_build(NEGWAFIR_MOST_UNIT, c->knots, LARGEST, c->values, LARGEST, c->slopes, LARGEST);
}

static void enter_spoilt(const copy *from)
{
    static const size_t first = 0, next_to_last = LARGEST - 3, last = LARGEST - 2, *const some[] = {NULL, &first, &next_to_last, &last};
    static copy c;
    for (size_t i = 1; i < 4 * 4 * 4; i++) {
        c = *from;
        spoil(&c, some[i % 4], some[i / 4 % 4], some[i / 16]);
        enter_all(&c, true);
    }
}

int main(void)
{
    static copy c;
    stepped = fork();
    need(stepped >= 0, "there is no second process");
    if (stepped == 0)
        need(ptrace(PTRACE_TRACEME, 0, 0, 0) == 0 && raise(SIGSTOP) == 0, "this process cannot be led");
    else
        await_stop();
    for (kind_of_table kind = RISING; kind <= SAW; kind++) {
        fill_table((table){c.knots, c.values, c.slopes}, LARGEST, kind);
        enter_all(&c, false);
        if (kind == MIXED)
            enter_spoilt(&c);
    }
    fill_large(&c);
    enter_all(&c, false);
    if (stepped == 0)
        return 0;
    printf("| Call | Accepted, fewest | most | Refused, most | Stack, bytes |\n|---|---|---|---|---|\n");
    for (const row *r = rows; r < rows + ROWS; r++)
        printf("| %s | %ld | %ld | %ld | %ld |\n", r->name, r->fewest, r->most, r->refused_most, r->stack);
    return 0;
}
