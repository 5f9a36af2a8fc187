/*
 * Calls every function of the library as no careful controller would: with lists of many lengths, empty ones at NULL and on a guard
 * among them, of unequal lengths and with the most extreme numbers, in every slope unit and in such as are none. Every list ends, or
 * begins, at memory that nobody may touch, and a list that a call only reads, or does not need at all, cannot be written, or touched,
 * while it runs. Every answer is held to the exact rules as rules.c states them, and every list, with the memory around it, to what
 * the call may leave there.
 */
#include "bad_callers.h"
#include "tally.h"

const uint32_t refused_units[REFUSED_UNITS] = {9, 31, 32, 64, 255, 256, 264, 65544, 2147483656, UINT32_MAX};

uint32_t some_unit(void) {
    return dice(2) == 0 ? 8 : (uint32_t)dice(9);
}

int main(void) {
    tally_begin();
    known_tables(); /* first, as they take little time and tell most faults */
    bad_numbers();
    bad_text();
    bad_tables();
    tally_end();
    return 0;
}
