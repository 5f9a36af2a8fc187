/* The same work by hand in C: what each function of negwafir.h with the same name answers. */
#ifndef REFERENCE_H
#define REFERENCE_H

#include "negwafir.h"

negwafir_judgement reference_judge(uint32_t s, int64_t h, int64_t z, int32_t m, int32_t n);

negwafir_refusal reference_check(uint32_t s, const int32_t *knots, size_t knots_length, const int32_t *values, size_t values_length,
                                 const int32_t *slopes, size_t slopes_length);

negwafir_refusal reference_build(uint32_t s, const int32_t *knots, size_t knots_length, const int32_t *values, size_t values_length,
                                 int32_t *slopes, size_t slopes_length);

negwafir_refusal reference_change_point(uint32_t s, int32_t *knots, size_t knots_length, int32_t *values, size_t values_length,
                                        int32_t *slopes, size_t slopes_length, negwafir_change change);

negwafir_place reference_locate(uint32_t s, const int32_t *knots, size_t knots_length, const int32_t *values, size_t values_length,
                                const int32_t *slopes, size_t slopes_length, int32_t position);

negwafir_value reference_evaluate(uint32_t s, const int32_t *knots, size_t knots_length, const int32_t *values, size_t values_length,
                                  const int32_t *slopes, size_t slopes_length, int32_t position);

negwafir_told reference_float_answer(uint32_t s, const int32_t *knots, size_t knots_length, const int32_t *values, size_t values_length,
                                     const int32_t *slopes, size_t slopes_length, int32_t position);

#endif
