/* Sets from a table in the layout of the agency's IGRF coefficients, for ./wmm --igrf FILE. */
#ifndef NJERUMOY_IGRF_TABLE_H
#define NJERUMOY_IGRF_TABLE_H

#include "njerumoy_set.h"

/* What a day asks for: before 2025 the set of its epoch and that of five years later, from 2025 on the
 * set of 2025 with its yearly rates. What is not asked for is zero. Each list is `length` long, 90 or
 * 104. */
struct igrf_sets {
    size_t length;
    struct njerumoy_owned_set_13 first, second;
};

/* Reads the table's columns for a day of this year, from 2000 to 2029. 0 where it did; else the
 * program's exit status, after it has said why: 1 where the table is refused (on standard output), 2
 * where it cannot be read (on standard error).
 *
 * The table:
 *   - Lines and words are those of a coefficient file (njerumoy.h). A line that begins with # and a
 *     line without a word say nothing.
 *   - First may stand a line that begins with c/s, the rest of it free.
 *   - Then comes g/h n m and a name for each column: 2000.0 is the set of 2000, 2025-30 are the yearly
 *     rates of 2025. Other columns may stand beside those that are read, in any order.
 *   - Then come the rows: g or h, degree, order, and a number for each column, in the order g 1 0,
 *     g 1 1, h 1 1, g 2 0, g 2 1, h 2 1, g 2 2, .. up to h 12 12, which makes lists of 90, or to
 *     h 13 13, which makes lists of 104.
 *   - The numbers are written as in a coefficient file, those of the other columns too. */
int read_igrf_table(const char *path, int32_t year, struct igrf_sets *sets);

/* Whether it is the yearly rates that were read beside the first set, and no second one. */
int has_rates(const struct igrf_sets *sets);

/* One of the two sets as the library's calls take it. */
struct njerumoy_set lent_of_table(const struct igrf_sets *sets,
                                  const struct njerumoy_owned_set_13 *set);

#endif
