/*
 * Lists that lie between two guards, memory that nobody may touch: whoever reads or writes behind the last entry of a list, or, in the
 * other arrangement, before its first, is stopped there. A guard is as wide as the longest of them, so that whoever takes another list's
 * length for this one's is stopped too. What a list and the memory around it have to hold is kept beside it.
 */
#ifndef GUARDED_H
#define GUARDED_H

#include <stdbool.h>
#include <stddef.h>

typedef enum { GUARD_BEHIND, GUARD_BEFORE } arrangement;

/* What a call may do with a list: a byte that is written and then put back is told by this alone. */
typedef enum { UNTOUCHED, READ_ONLY, WRITABLE } permission;

typedef struct {
    unsigned char *first; /* what may be touched */
    unsigned char *expected;
    size_t room;
    permission may;
    void *list;
    size_t length;
} guarded;

void guarded_map(guarded *g);

/* Lends a list of so many entries of this size, to be filled. The memory around it is filled with one pattern, the list with another. An
 * empty list starts on a guard. */
void guarded_lend(guarded *g, size_t length, size_t size, arrangement where);

/* Lends a list of one of the lengths that every list is tried with: none, at NULL, none, 1, 2, and on both sides of the most points. */
#define SHAPES 7
void guarded_lend_shape(guarded *g, size_t shape, size_t size, arrangement where);

/* Lends a list of zeros that may be read and not written, of a length that 16 bits do not hold: at most LONGEST_IN_16_BITS above 65536. */
#define LONGEST_IN_16_BITS 1024
void guarded_lend_long(guarded *g, size_t length);

/* What may be done with the list, and with the memory around it, from here on. */
void guarded_allow(guarded *g, permission may);

/* "behind" or "before". */
const char *guarded_word(arrangement where);

/* What is there now is what has to be there. */
void guarded_keep(guarded *g);

/* The list as it has to be, to write into. */
void *guarded_expected(guarded *g);

/* The list and the memory around it hold what they have to. They may be read from here on. */
bool guarded_same(guarded *g);

#endif
