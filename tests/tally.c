#define _DEFAULT_SOURCE
#include "tally.h"

#include "bad_callers.h"

#include <inttypes.h>
#include <signal.h>
#include <stdarg.h>
#include <stdio.h>
#include <stdlib.h>
#include <string.h>
#include <unistd.h>

#define REFUSALS (NEGWAFIR_SLOPE_UNIT + 1) /* 9 to 11 are none */
#define MOST_CASES 9

static char call[256] = "before the first call";
static unsigned long calls, refusals, refused_by[REFUSALS], refused_further[REFUSALS], met_case[CASES][MOST_CASES];

static const struct {
    const char *name;
    unsigned count;
} families[CASES] = {{"verdict", 5}, {"kind of float answer", 2}, {"kind of number", 3}, {"a value at unit", 9}};

/* What has to be tried, and by how many calls at least: a tenth below the present number, so that none can be left out or cut down unseen. */
typedef struct {
    const char *name;
    unsigned long least, calls;
} tried;

static tried functions[] = {
    {"negwafir_points", 5422, 0},
    {"negwafir_build", 6160, 0},
    {"negwafir_check", 12788, 0},
    {"negwafir_changed_points", 77580, 0},
    {"negwafir_change_point", 77580, 0},
    {"negwafir_evaluate", 36622, 0},
    {"negwafir_float_answer", 36655, 0},
    {"negwafir_locate", 36622, 0},
    {"negwafir_judge", 103969, 0},
    {"negwafir_difference", 1593, 0},
    {"negwafir_between", 42187, 0},
    {"negwafir_floor_div", 4702, 0},
    {"negwafir_nearest_div", 4702, 0},
    {"negwafir_unit_within", 4564, 0},
    {"negwafir_count_within", 4555, 0},
    {"negwafir_width_within", 4555, 0},
    {"negwafir_rise_within", 4555, 0},
    {"negwafir_find", 27820, 0},
    {"negwafir_content", 289, 0},
    {"negwafir_append", 4838, 0},
    {"negwafir_next_word", 2318, 0},
    {"negwafir_count_words", 2318, 0},
    {"negwafir_part", 18547, 0},
    {"negwafir_whole", 329, 0},
    {"negwafir_whole32", 329, 0},
    {"negwafir_append_natural", 11059, 0},
    {"negwafir_append_whole", 11059, 0},
    {"negwafir_append_whole32", 11059, 0},
};

static tried kinds[] = {
    {"pieces whose verdict is known", 19, 0},
    {"pieces of a unit that is refused", 189, 0},
    {"pieces of extreme numbers", 96570, 0},
    {"pieces at the border", 7200, 0},
    {"some numbers", 26137, 0},
    {"every number up to the most points", 3697, 0},
    {"extreme numbers", 126, 0},
    {"extreme numbers with others", 41448, 0},
    {"lines of one byte over and over", 11469, 0},
    {"lines of every length", 13062, 0},
    {"lines around the limits of lengths", 26762, 0},
    {"texts", 151, 0},
    {"digits of every length", 432, 0},
    {"digits around the limits of lengths", 75, 0},
    {"buffers of every length", 32472, 0},
    {"buffers around the limits of lengths", 5544, 0},
    {"small tables", 201044, 0},
    {"the largest tables", 6683, 0},
    {"tables between them", 20214, 0},
    {"tables of every number of points", 23935, 0},
    {"units that are refused", 1296, 0},
    {"units that are known", 9, 0},
    {"slopes that are known", 129, 0},
    {"ends that are known", 550, 0},
    {"changes that are known", 145, 0},
    {"values that are known", 43, 0},
    {"sizes that are known", 32, 0},
    {"bends that are known", 43, 0},
    {"changes of few points", 126, 0},
    {"changes in a long table", 25, 0},
    {"lengths that 16 bits do not hold", 1814, 0},
    {"good lists of unlike lengths", 22226, 0},
    {"extreme lists of unlike lengths", 11113, 0},
};

static tried *kind;

static tried *named(const char *name, size_t length, tried *all, size_t count) {
    size_t i;
    for (i = 0; i < count; i++)
        if (strlen(all[i].name) == length && memcmp(all[i].name, name, length) == 0)
            return &all[i];
    wrong("tally.c does not know what '%.*s' is", (int)length, name);
    return NULL;
}

void trying(const char *name) {
    kind = named(name, strlen(name), kinds, COUNT(kinds));
}

void calling(const char *format, ...) {
    va_list arguments;
    va_start(arguments, format);
    vsnprintf(call, sizeof call, format, arguments);
    va_end(arguments);
    if (kind == NULL)
        wrong("its kind was not said before");
    named(call, strcspn(call, " "), functions, COUNT(functions))->calls++;
    kind->calls++;
    calls++;
}

void wrong(const char *format, ...) {
    va_list arguments;
    va_start(arguments, format);
    printf("bad callers: %s: ", call);
    vprintf(format, arguments);
    printf("\n");
    va_end(arguments);
    exit(1);
}

void same_number(const char *what, int64_t answered, int64_t expected) {
    if (answered != expected)
        wrong("%s is %" PRId64 " and has to be %" PRId64, what, answered, expected);
}

void same_float(const char *what, double answered, double expected) {
    if (memcmp(&answered, &expected, sizeof answered) != 0)
        wrong("%s is %.17g and has to be %.17g", what, answered, expected);
}

void same_refusal(negwafir_refusal answered, negwafir_refusal expected) {
    if (answered.number != expected.number || answered.place != expected.place)
        wrong("refusal %" PRIu32 " at %zu, and it has to be %" PRIu32 " at %zu", answered.number, answered.place, expected.number, expected.place);
    refused_by[answered.number]++;
    refused_further[answered.number] += answered.place > 0;
    refusals += answered.number != 0;
}

void met(family which, uint32_t number) {
    met_case[which][number]++;
}

static void stopped(int signal) {
    static const char said[] = ": it touches what it may not touch\n";
    (void)signal;
    if (write(STDOUT_FILENO, "bad callers: ", 13) < 0 || write(STDOUT_FILENO, call, strlen(call)) < 0
        || write(STDOUT_FILENO, said, sizeof said - 1) < 0)
        _exit(2);
    _exit(1);
}

void tally_begin(void) {
    struct sigaction action;
    memset(&action, 0, sizeof action);
    action.sa_handler = stopped;
    if (sigaction(SIGSEGV, &action, NULL) != 0 || sigaction(SIGBUS, &action, NULL) != 0) {
        perror("bad callers: sigaction");
        exit(2);
    }
}

static bool is_a_refusal(unsigned number) {
    return number <= NEGWAFIR_SIZE || number == NEGWAFIR_SLOPE_UNIT;
}

/* These are a piece's, and have been met at one further on. */
static bool is_of_a_piece(unsigned number) {
    return number == NEGWAFIR_WIDTH || number == NEGWAFIR_RISE || number == NEGWAFIR_BEND || number == NEGWAFIR_SIZE;
}

static void tried_enough(const tried *all, size_t count) {
    size_t i;
    for (i = 0; i < count; i++)
        if (all[i].calls < all[i].least)
            wrong("%s: %lu calls, and it has to be %lu or more", all[i].name, all[i].calls, all[i].least);
}

void tally_end(void) {
    unsigned number, which;
    strcpy(call, "after the last call");
    for (number = 0; number < REFUSALS; number++)
        if (is_a_refusal(number) && refused_by[number] == 0)
            wrong("no call was answered by refusal %u", number);
        else if (is_of_a_piece(number) && refused_further[number] == 0)
            wrong("no call was answered by refusal %u at a place above 0", number);
    for (which = 0; which < CASES; which++)
        for (number = 0; number < families[which].count; number++)
            if (met_case[which][number] == 0)
                wrong("no call was answered by %s %u", families[which].name, number);
    tried_enough(functions, COUNT(functions));
    tried_enough(kinds, COUNT(kinds));
    printf("bad callers: %lu calls, %lu refusals, ok\n", calls, refusals);
}

uint64_t dice(uint64_t sides) {
    static uint64_t state = 88172645463325252u;
    state ^= state << 13;
    state ^= state >> 7;
    state ^= state << 17;
    return state % sides;
}
