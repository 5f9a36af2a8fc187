#define _DEFAULT_SOURCE
#include "guarded.h"

#include <stdio.h>
#include <stdlib.h>
#include <string.h>
#include <sys/mman.h>
#include <unistd.h>

#define LONGEST 4096 /* entries of 4 bytes */

static const size_t lengths[SHAPES] = {0, 0, 1, 2, 1024, 1025, LONGEST};

static void give_up(const char *what) {
    perror(what);
    exit(2);
}

static unsigned char *mapped(size_t bytes, int protection) {
    void *all = mmap(NULL, bytes, protection, MAP_PRIVATE | MAP_ANONYMOUS, -1, 0);
    if (all == MAP_FAILED)
        give_up("bad callers: mmap");
    return all;
}

void guarded_map(guarded *g) {
    size_t page = (size_t)sysconf(_SC_PAGESIZE);
    g->room = (4 * (size_t)LONGEST + page - 1) / page * page;
    g->first = mapped(3 * g->room, PROT_NONE) + g->room;
    g->may = UNTOUCHED;
    g->expected = malloc(g->room);
    if (g->expected == NULL)
        give_up("bad callers: malloc");
}

static void *place(const guarded *g, size_t bytes, arrangement where) {
    if (where == GUARD_BEHIND)
        return g->first + g->room - bytes;
    return bytes == 0 ? g->first - g->room : g->first;
}

void guarded_lend(guarded *g, size_t length, size_t size, arrangement where) {
    g->list = place(g, length * size, where);
    g->length = length;
    guarded_allow(g, WRITABLE);
    memset(g->first, 0x5a, g->room);
    if (length > 0)
        memset(g->list, 0xa5, length * size);
    guarded_keep(g);
}

void guarded_lend_shape(guarded *g, size_t shape, size_t size, arrangement where) {
    guarded_lend(g, lengths[shape], size, where);
    if (shape == 0)
        g->list = NULL;
}

void guarded_lend_long(guarded *g, size_t length) {
    static void *zeros;
    if (zeros == NULL)
        zeros = mapped(4 * (65536 + (size_t)LONGEST_IN_16_BITS), PROT_READ);
    g->list = zeros;
    g->length = length;
}

void guarded_allow(guarded *g, permission may) {
    static const int protections[] = {PROT_NONE, PROT_READ, PROT_READ | PROT_WRITE};
    if (may == g->may)
        return;
    if (mprotect(g->first, g->room, protections[may]) != 0)
        give_up("bad callers: mprotect");
    g->may = may;
}

const char *guarded_word(arrangement where) {
    return where == GUARD_BEHIND ? "behind" : "before";
}

void guarded_keep(guarded *g) {
    memcpy(g->expected, g->first, g->room);
}

void *guarded_expected(guarded *g) {
    return g->expected + ((unsigned char *)g->list - g->first);
}

/* What could not be written holds what it held: only where it could, the bytes are compared, and that takes far longer. */
bool guarded_same(guarded *g) {
    if (g->may == UNTOUCHED)
        guarded_allow(g, READ_ONLY);
    return g->may == READ_ONLY || memcmp(g->first, g->expected, g->room) == 0;
}
