/* Which call is being made, what was wrong with it, and how many there were. */
#ifndef TALLY_H
#define TALLY_H

#include "negwafir.h"

/* Said before calls of one kind, by the name that tally.c has for it. */
void trying(const char *kind);

/* Said before each call: the function, and what it is given. */
void calling(const char *format, ...);

/* Ends the run, and says in which call. */
void wrong(const char *format, ...);

/* What a call answered and what it had to answer. */
void same_refusal(negwafir_refusal answered, negwafir_refusal expected);
void same_number(const char *what, int64_t answered, int64_t expected);
void same_float(const char *what, double answered, double expected);

/* A case that some call has to meet: a verdict, a kind of answer, or the unit of a table that has a value. */
typedef enum { A_VERDICT, A_TOLD, A_READ, A_UNIT, CASES } family;
void met(family which, uint32_t number);

/* From here on a call that touches what it may not touch is said and ends the run. */
void tally_begin(void);

/* Every refusal, verdict and kind of answer has been met, and every function and kind of call was tried often enough. */
void tally_end(void);

/* Numbers at random, the same in every run. */
uint64_t dice(uint64_t sides);

#endif
