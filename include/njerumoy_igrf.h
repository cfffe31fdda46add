/* Njerumoy, the IGRF profile: the field, how far rounding can have moved it, and its yearly change from
 * 2000 to 2029, before 2025 between two lent sets that are five years apart, from then on from the set
 * of 2025 alone.
 *
 * What the head of njerumoy.h says holds here too: what a call returns and writes, and what the caller
 * owes.
 */
#ifndef NJERUMOY_IGRF_H
#define NJERUMOY_IGRF_H

#include "njerumoy.h"

#ifdef __cplusplus
extern "C" {
#endif

/* IGRF: the geomagnetic field at a place and a day of the profile.
 *
 * height .. day_of_year   as in njerumoy_field
 * epoch_year    the epoch year of the first set: the last one up to the day's year that five divides
 * g .. h_dot    the first set, each list with its length
 * second_epoch_year       the epoch year of the second set: five years later
 * second_g, second_h      the second set, each list with its length. Its rates are never asked
 * xyz           X (north), Y (east) and Z (down)
 * entry         of refusal 7: the list (0 g, 1 h, 2 g_dot, 3 h_dot, 4 second_g, 5 second_h) and the
 *               index from 0
 * years         of refusal 8: the epoch year that is needed and the set's, of the first set or of the
 *               second
 *
 * Before 2025 a coefficient at the day is first + t * ((second - first) / 5), with t the years since
 * the first set's epoch, and the lists that are read are g, h, second_g and second_h. From 2025 on it
 * is g + t * g_dot or h + t * h_dot, and those read are g, h, g_dot and h_dot; all rates above degree 8
 * must be zero. The four that are read are all 90 long for degree 12, or all 104 for degree 13. Nothing
 * of the others is looked at, and from 2025 on second_epoch_year is not: numbers and lengths there may
 * be any. A list that is not read may have the length 0.
 *
 * How near X, Y and Z are to the exact field, njerumoy_igrf_allowance says. Near a pole orders 2 and
 * above are left out, as in njerumoy_field. The profile has no error figures.
 *
 * Refusals, in this order: 1, 2, 3, 4; 5, of a day before day 1 of 2000 or after day 365 of 2029; 6,
 * 23, of the four lists that are read; 22, from 2025 on; 7, of these four in their order, with the caps
 * of g and h for those of the second set; 8, of the first set, then before 2025 of the second. */
uint32_t njerumoy_igrf(float height, float sin_phi, float cos_phi, float sin_lambda, float cos_lambda,
                       int32_t year, int32_t day_of_year, int32_t epoch_year, const float *g,
                       size_t g_length, const float *h, size_t h_length, const float *g_dot,
                       size_t g_dot_length, const float *h_dot, size_t h_dot_length,
                       int32_t second_epoch_year, const float *second_g, size_t second_g_length,
                       const float *second_h, size_t second_h_length, float xyz[3], size_t entry[2],
                       int32_t years[2]);

/* Allowance: how far X, Y and Z of njerumoy_igrf can lie from the exact field of the same question.
 *
 * height .. second_h   as in njerumoy_igrf
 * allowances    for X, Y and Z in this order: a finite number above zero, in nanotesla
 * entry, years  as in njerumoy_igrf
 *
 * The exact field is as in njerumoy_allowance, of the coefficients at the day: they too are worked out
 * with nothing rounded. Each number is at least the distance between the shown strength and the exact
 * one. It is also at least the proved bound of that distance, M / 131072 + 2^-20, and at most 1.01 times
 * that bound; M is the same sum with every number taken by its size and every minus read as plus. Before
 * 2025 that goes for the first set, the second and the offset: of a coefficient M takes
 * |first| + t * ((|second| + |first|) / 5). What is left out near a pole is not counted.
 *
 * Refusals: those of njerumoy_igrf, in the same order. It answers where njerumoy_igrf answers. */
uint32_t njerumoy_igrf_allowance(float height, float sin_phi, float cos_phi, float sin_lambda,
                                 float cos_lambda, int32_t year, int32_t day_of_year,
                                 int32_t epoch_year, const float *g, size_t g_length,
                                 const float *h, size_t h_length, const float *g_dot,
                                 size_t g_dot_length, const float *h_dot, size_t h_dot_length,
                                 int32_t second_epoch_year, const float *second_g,
                                 size_t second_g_length, const float *second_h,
                                 size_t second_h_length, float allowances[3], size_t entry[2],
                                 int32_t years[2]);

/* Rates: the yearly change of the field at a place and a day of the profile.
 *
 * height .. second_h   as in njerumoy_igrf
 * rates         by NJERUMOY_RATE_..: nanotesla a year of X, Y, Z, H and F, degrees a year of the
 *               declination and the inclination. Each is finite
 * entry, years  as in njerumoy_igrf
 *
 * The rates of X, Y and Z are what njerumoy_igrf works out of the yearly change of each coefficient in
 * the place of the coefficient at the day: before 2025 of (second - first) / 5, from then on of g_dot
 * and h_dot. So they are the same on all days from one epoch to the next. Each is within
 * M / 131072 + 2^-20 of the exact sum of these, with nothing rounded, and with M as in
 * njerumoy_igrf_allowance but of them. Near a pole orders 2 and above are left out, as of the field. The
 * other four follow from them and from the field of the day, as in njerumoy_rates.
 *
 * Refusals, in this order: those of njerumoy_igrf in its order; 21, exactly where H is zero. */
uint32_t njerumoy_igrf_rates(float height, float sin_phi, float cos_phi, float sin_lambda,
                             float cos_lambda, int32_t year, int32_t day_of_year, int32_t epoch_year,
                             const float *g, size_t g_length, const float *h, size_t h_length,
                             const float *g_dot, size_t g_dot_length, const float *h_dot,
                             size_t h_dot_length, int32_t second_epoch_year, const float *second_g,
                             size_t second_g_length, const float *second_h, size_t second_h_length,
                             float rates[7], size_t entry[2], int32_t years[2]);

#ifdef __cplusplus
}
#endif

#endif
