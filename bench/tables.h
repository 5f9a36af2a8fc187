/* The tables that the benchmark and the sheet are about. */
#ifndef TABLES_H
#define TABLES_H

#include "reference.h"

enum { LARGEST = 1024 };

/* Up; up, down or level for 32 pieces each; the same for each piece; slopes three times that of the line that all points lie on; level; down; and
   up and down in turn. */
typedef enum { RISING, RUNS, MIXED, STEEP, LEVEL, FALLING, SAW } kind_of_table;

typedef struct {
    int32_t *knots, *values, *slopes;
} table;

/* A number from a fixed sequence, so that every run has the same input. */
int64_t dice(int64_t low, int64_t high);

/* A table that is accepted at the unit 8, so that no call stops early. */
void fill_table(table t, size_t length, kind_of_table kind);

#endif
