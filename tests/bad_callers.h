/* The calls, by what the functions are about; and units for them. */
#ifndef BAD_CALLERS_H
#define BAD_CALLERS_H

#include <stdint.h>

#define COUNT(array) (sizeof(array) / sizeof *(array))

/* A unit that is taken. Half of them are 8, at which every product is largest. */
uint32_t some_unit(void);

/* Units that are refused: the first above 8, those of which 5, 6, 8 or 16 bits, or a sign, make another that is taken, and the largest. */
#define REFUSED_UNITS 10
extern const uint32_t refused_units[REFUSED_UNITS];

void known_tables(void); /* before bad_tables */
void bad_tables(void);
void bad_numbers(void);
void bad_text(void);

#endif
