/* Njerumoy: the World Magnetic Model's numeric core, as a library to link.
 *
 * Every function returns a refusal number: 0 where it has an answer, else one of the numbers below.
 * A place that is lent for a result is written only where the call has that result; else it keeps
 * what it held. The lists of coefficients and of error records are only read, but by
 * njerumoy_read_cof, njerumoy_read_stored and njerumoy_read_stored_either: to these three the
 * coefficients' are places for results. The bytes of a stored set are only read, but by
 * njerumoy_write_stored and njerumoy_write_stored_either. Nothing is kept between two calls, so calls
 * may run at the same time in several threads. Of other libraries only memcpy and memset are called.
 *
 * Whatever numbers and bytes come, a call ends and answers as this file says: NaNs, infinities, and
 * lists, texts and stored bytes of any length. What the caller owes is what C cannot say:
 *   - a pointer is not null and is aligned, also for a list, a text or bytes of length 0;
 *   - behind a list's pointer stand at least as many floats or error records as its length says, and
 *     behind a text's or stored bytes' as many bytes;
 *   - the places for results overlap neither each other nor what is read.
 *
 * float is IEEE 754 binary32. The processor rounds to nearest, and flushes no subnormal to zero
 * (leave -ffast-math out when you link). Strengths are in nanotesla, rates in nanotesla a year,
 * angles in degrees, heights in metres above the WGS 84 ellipsoid.
 *
 * These are the proved functions. To them a set is loose arguments, its year and each list, or bytes.
 * njerumoy_set.h has the same calls with the set in one piece, and njerumoy_published.h the two
 * published sets: there the lists of one epoch are not lent with the year of another by mistake.
 * njerumoy_igrf.h has the proved functions of the IGRF profile.
 */
#ifndef NJERUMOY_H
#define NJERUMOY_H

#include <stddef.h>
#include <stdint.h>

#ifdef __cplusplus
extern "C" {
#endif

/* The length of each of the four lists g, h, g_dot, h_dot, which is the same for all four: 90 is a set
 * of degree 12, as the WMM's are, and 104 one of degree 13. The coefficient of degree n and order m,
 * 1 <= n and 0 <= m <= n, stands at n * (n + 1) / 2 + m - 1. A coefficient file is of degree 12: to the
 * call that reads one a list is 90 long. So it is to the calls with a stored set, but to those whose
 * names end in _either. */
#define NJERUMOY_LIST_LENGTH 90
#define NJERUMOY_LIST_LENGTH_13 104

/* The refusals. The first that applies is returned, in the order that each function gives. */
enum {
    NJERUMOY_ANSWER = 0,
    /* the height is not finite, or outside -1000 to 850000 m */
    NJERUMOY_HEIGHT = 1,
    /* the latitude is no latitude: its pair is off the circle or its cosine below -2^-20; of a grid
     * variation, it is not finite or outside -90 to 90 degrees */
    NJERUMOY_LATITUDE = 2,
    /* the longitude is no longitude: its pair is off the circle; of a grid variation, it is not
     * finite or outside -180 to 180 degrees */
    NJERUMOY_LONGITUDE = 3,
    /* that year has no such day */
    NJERUMOY_DAY_OF_YEAR = 4,
    /* no model: the epoch year, of the day, of the set or as given, is neither 2020 nor 2025. The
     * two models serve from day 1 of 2020 to day 365 of 2029; the IGRF profile serves from day 1 of
     * 2000 on. */
    NJERUMOY_EPOCH_YEAR = 5,
    /* one of the four lists is neither 90 nor 104 long; of a coefficient file, or of a stored set by a
     * call whose name does not end in _either, it is not 90 long */
    NJERUMOY_LENGTH = 6,
    /* a coefficient is not finite, or over its cap: 65536 nT in g and h, 4096 nT a year in the
     * rates. `entry` is told the first one. */
    NJERUMOY_COEFFICIENT = 7,
    /* the set belongs to another epoch than the day. `years` is told both. */
    NJERUMOY_OTHER_EPOCH = 8,
    /* the pair of the colatitude is off the circle */
    NJERUMOY_COLATITUDE = 9,
    /* the radius ratio is not finite, or outside 0.875 to 1.015625 */
    NJERUMOY_RATIO = 10,
    /* the offset is not finite, or outside 0 to 5 years */
    NJERUMOY_OFFSET = 11,
    /* a number that cannot be used: a component that is not finite or over 2^60 in size, a
     * declination that is not finite or outside -180 to 180, a root of a NaN or of a number below
     * zero, a figure of a lent error record that is not finite or is below zero (-0 is not) */
    NJERUMOY_UNUSABLE = 12,
    /* a line of a coefficient file is not what the file has there. `line` is told its number. */
    NJERUMOY_MALFORMED = 13,
    /* a line of a coefficient file is out of order or missing. `line` is told the number. */
    NJERUMOY_OUT_OF_ORDER = 14,
    /* a lent list has no error record of the epoch year */
    NJERUMOY_NO_ERROR_RECORD = 15,
    /* an angle is not finite, or outside -180 to 180 degrees */
    NJERUMOY_ANGLE = 16,
    /* a tag of a stored set is not the one that is due. `place` is told where it stands. */
    NJERUMOY_WRONG_TAG = 17,
    /* a length in a stored set is not that of its field. `place` is told where it begins. */
    NJERUMOY_WRONG_LENGTH = 18,
    /* a stored set is cut short, or bytes are left over. `place` is told where. */
    NJERUMOY_WRONG_END = 19,
    /* a set cannot be stored: the output is shorter than a stored set, or the epoch year is outside 0
     * to 65535 */
    NJERUMOY_NO_ROOM = 20,
    /* there are no yearly rates: H is zero, and is a divisor of them */
    NJERUMOY_ZERO_DIVISOR = 21,
    /* a rate above degree 8 is not zero, in the IGRF profile from 2025 on */
    NJERUMOY_RATE_ABOVE_EIGHT = 22,
    /* lists of different degree: some of the four are 90 long, the others 104; or the four that a
     * stored set is read into are of the other length than the stored ones */
    NJERUMOY_DEGREE = 23
};

/* A pair (sine, cosine) is off the circle where one of them is not finite, or the sum of their
 * squares, each step rounded to float, lies outside 1 - 2^-20 to 1 + 2^-20. */

/* The sine and the cosine of an angle from -180 to 180 degrees: a pair, as the calls below take it.
 * Both are worked out in whole numbers, so that their bits are the same on every machine. Pairs from
 * elsewhere, such as sinf and cosf of one angle, are taken as well.
 *
 * Each is within 2^-22 of the exact value. They are exact at 0, 90 and 180 degrees of either sign:
 * the sine of -0 is -0, of 180 it is 0 and of -180 it is -0; the cosine of 90 and of -90 is 0.
 *
 * A pair that is made here is on the circle. So njerumoy_field never refuses it by 3, and as a
 * latitude by 2 only where the angle is beyond 90 degrees, of either sign.
 *
 * Refusal 16. */
uint32_t njerumoy_sine_and_cosine(float degrees, float *sine, float *cosine);

/* Field: the geomagnetic field at a place and a day.
 *
 * height        metres
 * sin_phi ..    sine and cosine of the geodetic latitude, and of the longitude
 * year, day_of_year   the day; day_of_year is 1 on the first of January
 * epoch_year    the epoch year of the set, 2020 or 2025
 * g .. h_dot    the set, each list with its length: all four 90 for degree 12, or all four 104 for
 *               degree 13
 * xyz           X (north), Y (east) and Z (down)
 * errors        the error figures of the model, by NJERUMOY_ERROR_..
 * entry         of refusal 7: the list (0 g, 1 h, 2 g_dot, 3 h_dot) and the index from 0
 * years         of refusal 8: the epoch years of the day and of the set
 *
 * Within about 6.4 km of a pole, where the sine of the geocentric colatitude is below the float 1e-3
 * in size, orders 2 and above are left out, as in the Rust crate world_magnetic_model: with the
 * published sets that is up to 11 nT in X and Y, which njerumoy_allowance does not count.
 *
 * Refusals, in this order: 1, 2, 3, 4, 5, 6, 23, 7, 8. */
uint32_t njerumoy_field(float height, float sin_phi, float cos_phi, float sin_lambda,
                        float cos_lambda, int32_t year, int32_t day_of_year, int32_t epoch_year,
                        const float *g, size_t g_length, const float *h, size_t h_length,
                        const float *g_dot, size_t g_dot_length, const float *h_dot,
                        size_t h_dot_length, float xyz[3], float errors[8], size_t entry[2],
                        int32_t years[2]);

/* Field, with the latitude and the longitude in degrees: all is told as njerumoy_field tells it of the
 * pairs that njerumoy_sine_and_cosine makes of the two, to the bit.
 *
 * latitude_deg, longitude_deg    north and east positive
 * the others    as in njerumoy_field
 *
 * Refusals, in this order: 16, by the latitude; 16, by the longitude; 1, 2, 4, 5, 6, 23, 7, 8 as in
 * njerumoy_field. 2 is only of a latitude beyond 90 degrees, of either sign; a latitude that is beyond
 * by less than 2^-20 radians can be answered. */
uint32_t njerumoy_field_in_degrees(float height, float latitude_deg, float longitude_deg,
                                   int32_t year, int32_t day_of_year, int32_t epoch_year,
                                   const float *g, size_t g_length, const float *h, size_t h_length,
                                   const float *g_dot, size_t g_dot_length, const float *h_dot,
                                   size_t h_dot_length, float xyz[3], float errors[8],
                                   size_t entry[2], int32_t years[2]);

/* Where each figure stands in `errors`. The declination's uncertainty is the root of
 * SIGMA_C squared + (SIGMA_V / H) squared, and at most 180: njerumoy_declination_uncertainty. */
enum {
    NJERUMOY_ERROR_SIGMA_C = 0,
    NJERUMOY_ERROR_SIGMA_V = 1,
    NJERUMOY_ERROR_INCLINATION = 2,
    NJERUMOY_ERROR_F = 3,
    NJERUMOY_ERROR_H = 4,
    NJERUMOY_ERROR_X = 5,
    NJERUMOY_ERROR_Y = 6,
    NJERUMOY_ERROR_Z = 7
};

/* An error record: the error figures of one epoch year, in the order of `errors`. Lists of it are lent
 * to the two calls whose names end in _listed, so that a new edition of the figures needs no new
 * library. The calls without a list have the figures of 2020 and 2025 built in. */
struct njerumoy_error_record {
    int32_t epoch_year;
    float declination_sigma_c, declination_sigma_v, inclination, f, h, x, y, z;
};

/* The library takes the records to follow each other without gaps. */
#if defined(__cplusplus) && __cplusplus >= 201103L
static_assert(sizeof(struct njerumoy_error_record) == 36, "an error record has padding");
#elif defined(__STDC_VERSION__) && __STDC_VERSION__ >= 201112L
_Static_assert(sizeof(struct njerumoy_error_record) == 36, "an error record has padding");
#endif

/* Field, with the error figures from a lent list.
 *
 * height .. h_dot   as in njerumoy_field
 * records       the list, in any order, with its length. The first record of the day's epoch year is
 *               the one that is used; no other is looked at for refusal 12
 * xyz           as in njerumoy_field, to the bit
 * errors        the figures of that record
 * entry, years  as in njerumoy_field
 *
 * Refusals, in this order: 1, 2, 3, 4, 5, 6, 23, 7, 8 as in njerumoy_field; 15; 12, by any of the
 * eight figures. So a list changes neither the days nor the sets that are served. */
uint32_t njerumoy_field_listed(float height, float sin_phi, float cos_phi, float sin_lambda,
                               float cos_lambda, int32_t year, int32_t day_of_year,
                               int32_t epoch_year, const float *g, size_t g_length, const float *h,
                               size_t h_length, const float *g_dot, size_t g_dot_length,
                               const float *h_dot, size_t h_dot_length,
                               const struct njerumoy_error_record *records, size_t records_length,
                               float xyz[3], float errors[8], size_t entry[2], int32_t years[2]);

/* Allowance: how far X, Y and Z of njerumoy_field can lie from the exact field of the same question.
 *
 * height .. h_dot   as in njerumoy_field
 * allowances    for X, Y and Z in this order: a finite number above zero, in nanotesla
 * entry, years  as in njerumoy_field
 *
 * The exact field is the model's sum and the turn to the geodetic axes, with nothing rounded, from
 * the set as it stands and from the colatitude, the radius ratio and the offset that Field works out
 * in float. Each number is at least the distance between the shown strength and the exact one. It is
 * also at least the proved bound of that distance, M / 131072 + 2^-20, and at most 1.01 times that
 * bound; M is the same sum with every number taken by its size and every minus read as plus. This is
 * the arithmetic's part alone. The model's own error stands in `errors` of njerumoy_field.
 *
 * Refusals: those of njerumoy_field, in the same order. It answers where njerumoy_field answers. */
uint32_t njerumoy_allowance(float height, float sin_phi, float cos_phi, float sin_lambda,
                            float cos_lambda, int32_t year, int32_t day_of_year,
                            int32_t epoch_year, const float *g, size_t g_length, const float *h,
                            size_t h_length, const float *g_dot, size_t g_dot_length,
                            const float *h_dot, size_t h_dot_length, float allowances[3],
                            size_t entry[2], int32_t years[2]);

/* Rates: the yearly change of the field at a place and a day, to bring an old sheet forward.
 *
 * height .. h_dot   as in njerumoy_field
 * rates         by NJERUMOY_RATE_..: nanotesla a year of X, Y, Z, H and F, degrees a year of the
 *               declination and the inclination. Each is finite
 * entry, years  as in njerumoy_field
 *
 * The rates of X, Y and Z are what njerumoy_field works out of g_dot and h_dot in the place of g and
 * h, with the offset 0: so they are the same on all days of the epoch. Each is within
 * M / 131072 + 2^-20 of the exact sum of the rates, with M as in njerumoy_allowance but of the rates.
 * Near a pole orders 2 and above are left out, as of the field: with the published sets that is up to
 * 0.07 nT a year in X and Y. The other four follow from them and from the field of the day, with H and
 * F as njerumoy_horizontal and njerumoy_total give them:
 *
 *   declination   (Y rate * X - Y * X rate) / (H * H), in degrees
 *   inclination   (Z rate * H - Z * H rate) / (F * F), in degrees
 *   H             (X * X rate + Y * Y rate) / H
 *   F             (X * X rate + Y * Y rate + Z * Z rate) / F
 *
 * Refusals, in this order: 1, 2, 3, 4, 5, 6, 23, 7, 8 as in njerumoy_field; 21, exactly where H is
 * zero. Where H is above zero so is F, and there is an answer. */
uint32_t njerumoy_rates(float height, float sin_phi, float cos_phi, float sin_lambda,
                        float cos_lambda, int32_t year, int32_t day_of_year, int32_t epoch_year,
                        const float *g, size_t g_length, const float *h, size_t h_length,
                        const float *g_dot, size_t g_dot_length, const float *h_dot,
                        size_t h_dot_length, float rates[7], size_t entry[2], int32_t years[2]);

/* Where each rate stands in `rates`. */
enum {
    NJERUMOY_RATE_X = 0,
    NJERUMOY_RATE_Y = 1,
    NJERUMOY_RATE_Z = 2,
    NJERUMOY_RATE_DECLINATION = 3,
    NJERUMOY_RATE_INCLINATION = 4,
    NJERUMOY_RATE_H = 5,
    NJERUMOY_RATE_F = 6
};

/* Sum: the sums over degree and order, at a geocentric place.
 *
 * cos_theta, sin_theta    of the geocentric colatitude
 * sin_lambda, cos_lambda  of the longitude
 * ratio         the model's reference radius, 6371200 m, over the distance from the Earth's centre
 * offset        years since the set's epoch
 * g .. h_dot    as in njerumoy_field
 * xyz           X', Y and Z': along the geocentric axes, X' and Z' with the sign turned round
 *               (south and up)
 * entry         as in njerumoy_field
 *
 * Refusals, in this order: 9, 3, 10, 11, 6, 23, 7. */
uint32_t njerumoy_sum(float cos_theta, float sin_theta, float sin_lambda, float cos_lambda,
                      float ratio, float offset, const float *g, size_t g_length, const float *h,
                      size_t h_length, const float *g_dot, size_t g_dot_length,
                      const float *h_dot, size_t h_dot_length, float xyz[3], size_t entry[2]);

/* Epoch: the epoch year of a day, and the years since then. Refusals, in this order: 4, 5. */
uint32_t njerumoy_epoch(int32_t year, int32_t day_of_year, int32_t *epoch_year, float *offset);

/* Read: a coefficient set from the agency's file WMM.COF.
 *
 * text          the file's bytes, with their number
 * g .. h_dot    where the set is put, each list with its length, 90
 * epoch_year    the set's epoch year. Any whole number is read; njerumoy_field refuses others by 5
 * entry         of refusal 7: as in njerumoy_field
 * line          of refusals 13 and 14: the number of the line; the first is 1
 *
 * The file:
 *   - A line ends with LF or CR LF, the last one also with the file. Its words stand between blanks,
 *     which are spaces and tabs.
 *   - Line 1 begins with the epoch year, a whole number. The rest of it is free.
 *   - Then come 90 lines of six words: degree, order, g, h, g_dot, h_dot. Degree and order are whole
 *     numbers, in the order 1 0, 1 1, 2 0, .. 12 12.
 *   - Then come lines of nines, as many as there are, each of one word or more; and nothing else.
 *   - A number is digits, or digits, a point and digits, at most nine digits in all, and may have a
 *     minus before it. So +5, .5, 5. and 1e3 are none. It is read as the nearest float, of two as
 *     near the even one, and -0.0 as -0. A whole number has only zeros after its point.
 *
 * Refusals: 6; then the first line that is refused, by 13 or 14; then, of a file whose lines are all
 * in order, 7. Where a coefficient's line is due, 14 is the end of the file, six words as above with
 * another degree or order, and a line of nines, unless it is the line that is due (9 9 9 9 9 9 can
 * be). An empty file is refused by 14 at line 1. All else is 13. A refused file leaves the four lists
 * and epoch_year as they were. */
uint32_t njerumoy_read_cof(const uint8_t *text, size_t text_length, float *g, size_t g_length,
                           float *h, size_t h_length, float *g_dot, size_t g_dot_length,
                           float *h_dot, size_t h_dot_length, int32_t *epoch_year, size_t entry[2],
                           size_t *line);

/* The number of bytes of a stored set: of degree 12, and of degree 13. */
enum { NJERUMOY_STORED_LENGTH = 1457, NJERUMOY_STORED_LENGTH_13 = 1681 };

/* A stored set is a coefficient set as bytes, to be kept in a file or handed across: five fields, in
 * this order, and nothing else.
 *
 *   place   tag   length   content
 *       0     1        2   the epoch year, 0 to 65535
 *       5     2      360   the list g: the bits of its 90 floats
 *     368     3      360   h
 *     731     4      360   g_dot
 *    1094     5      360   h_dot
 *
 * Of degree 13 the content of a list is 416 bytes, the bits of 104 floats: then the places are 0, 5,
 * 424, 843 and 1262. The four lists are of one length, and that of g says which form it is.
 *
 * A field is its tag, of one byte, the length of its content, of two, and the content. Of the year, of
 * a length and of the bits of a float the low byte comes first. Places are counted from 0.
 *
 * A set that is written reads back to the same bits, and bytes that are read write back the same. */

/* Read a stored set.
 *
 * stored        the bytes, with their number
 * g .. h_dot    where the set is put, each list with its length, 90
 * epoch_year    the set's epoch year. Any year is read; njerumoy_field refuses others by 5
 * entry         of refusal 7: as in njerumoy_field
 * place         of refusals 17, 18 and 19: the place in the bytes
 *
 * Refusals: 6; then the first place in the bytes that is refused, by 17, 18 or 19; then, of bytes that
 * are all in order, 7. Of 17 the place is that of the tag, of 18 that of the length's first byte. Of
 * 19 it is their number where they are cut short, and NJERUMOY_STORED_LENGTH where bytes are left
 * over. Refused bytes leave the four lists and epoch_year as they were. */
uint32_t njerumoy_read_stored(const uint8_t *stored, size_t stored_length, float *g, size_t g_length,
                              float *h, size_t h_length, float *g_dot, size_t g_dot_length,
                              float *h_dot, size_t h_dot_length, int32_t *epoch_year,
                              size_t entry[2], size_t *place);

/* Write a set as a stored set.
 *
 * epoch_year    the set's epoch year
 * g .. h_dot    the set, each list with its length, 90
 * stored        where the bytes are put, with the number of bytes that there is room for. Those beyond
 *               the first NJERUMOY_STORED_LENGTH stay as they were
 * entry         of refusal 7: as in njerumoy_field
 *
 * Refusals, in this order: 6, 7, 20. A refused set leaves all bytes as they were. */
uint32_t njerumoy_write_stored(int32_t epoch_year, const float *g, size_t g_length, const float *h,
                               size_t h_length, const float *g_dot, size_t g_dot_length,
                               const float *h_dot, size_t h_dot_length, uint8_t *stored,
                               size_t stored_length, size_t entry[2]);

/* Read a stored set of either degree.
 *
 * g .. h_dot    where the set is put, each list with its length: all four 90, or all four 104, as the
 *               stored ones are
 * the others    as in njerumoy_read_stored
 *
 * Refusals: 6, 23, by the lengths that are lent; then the first place in the bytes that is refused, by
 * 17, 18 or 19, as in njerumoy_read_stored; then, of bytes that are all in order, 23 where the stored
 * lists are of the other length, and 7. A set whose tag 2 has the length 416 is taken to be of degree
 * 13, any other of degree 12: so a later list of another length than that of tag 2 is refused by 18.
 * Of 19 the place is the length of the form where bytes are left over. Whichever degree is stored, bytes
 * can be read by two calls: with lists of 90 and, where these are refused by 23, with lists of 104. */
uint32_t njerumoy_read_stored_either(const uint8_t *stored, size_t stored_length, float *g,
                                     size_t g_length, float *h, size_t h_length, float *g_dot,
                                     size_t g_dot_length, float *h_dot, size_t h_dot_length,
                                     int32_t *epoch_year, size_t entry[2], size_t *place);

/* Write a set of either degree as a stored set.
 *
 * g .. h_dot    the set, each list with its length: all four 90, or all four 104
 * stored        as in njerumoy_write_stored; lists of 104 take NJERUMOY_STORED_LENGTH_13 bytes
 * the others    as in njerumoy_write_stored
 *
 * Refusals, in this order: 6, 23, 7, 20. A refused set leaves all bytes as they were. */
uint32_t njerumoy_write_stored_either(int32_t epoch_year, const float *g, size_t g_length,
                                      const float *h, size_t h_length, const float *g_dot,
                                      size_t g_dot_length, const float *h_dot, size_t h_dot_length,
                                      uint8_t *stored, size_t stored_length, size_t entry[2]);

/* Field, with the set as stored bytes: all is told as njerumoy_field tells it of the set that
 * njerumoy_read_stored reads, to the bit.
 *
 * stored        the bytes, with their number
 * height .. years   as in njerumoy_field
 * place         of refusals 17, 18 and 19: as in njerumoy_read_stored
 *
 * Refusals, in this order: those of njerumoy_read_stored, without 6; 1, 2, 3, 4, 5, 8 as in
 * njerumoy_field. */
uint32_t njerumoy_field_stored(const uint8_t *stored, size_t stored_length, float height,
                               float sin_phi, float cos_phi, float sin_lambda, float cos_lambda,
                               int32_t year, int32_t day_of_year, float xyz[3], float errors[8],
                               size_t entry[2], int32_t years[2], size_t *place);

/* Field, with a stored set of either degree: all is told as njerumoy_field tells it of the set that
 * njerumoy_read_stored_either reads into lists of the stored length, to the bit.
 *
 * stored .. place   as in njerumoy_field_stored
 *
 * Refusals, in this order: those of njerumoy_read_stored_either, without 6 and 23; 1, 2, 3, 4, 5, 8 as
 * in njerumoy_field. */
uint32_t njerumoy_field_stored_either(const uint8_t *stored, size_t stored_length, float height,
                                      float sin_phi, float cos_phi, float sin_lambda,
                                      float cos_lambda, int32_t year, int32_t day_of_year,
                                      float xyz[3], float errors[8], size_t entry[2],
                                      int32_t years[2], size_t *place);

/* The strengths over a field's X, Y and Z. Refusal 12, by any of the three.
 *
 * horizontal    H, the root of X * X + Y * Y
 * total         F, the root of H * H + Z * Z
 * zone          a warning that the declination is not to be trusted, by H */
uint32_t njerumoy_horizontal(float x, float y, float z, float *h);
uint32_t njerumoy_total(float x, float y, float z, float *f);
uint32_t njerumoy_zone(float x, float y, float z, uint32_t *zone);

enum {
    NJERUMOY_NO_ZONE = 0,
    /* H below 2000 nT */
    NJERUMOY_BLACKOUT_ZONE = 1,
    /* H from 2000 nT on and below 6000 nT */
    NJERUMOY_CAUTION_ZONE = 2
};

/* The declination of a field of x to the north and y to the east: the angle from north to the field,
 * east positive, -180 to 180 degrees.
 *
 * It is within 2^-15 degree of the exact angle, and its bits are the same on every machine. Where y is
 * zero, of either sign, it is 180 for an x below zero and else 0; where x alone is zero, it is exactly
 * 90 or -90.
 *
 * Refusal 12: njerumoy_declination by x or y, njerumoy_field_declination by any of the three. */
uint32_t njerumoy_declination(float x, float y, float *declination);
uint32_t njerumoy_field_declination(float x, float y, float z, float *declination);

/* The inclination: the angle from the horizontal plane to the field, down positive, -90 to 90 degrees.
 * It is the angle of (H, Z), found as the declination is found of (X, Y), with H as
 * njerumoy_horizontal gives it. So it is within 2^-15 degree of the exact angle of these two; where z
 * is zero, of either sign, it is 0, and where H alone is zero, it is exactly 90 or -90.
 *
 * Refusal 12, by any of the three. */
uint32_t njerumoy_inclination(float x, float y, float z, float *inclination);

/* The uncertainty of the declination, by the error figures of an epoch year. Refusals, in this
 * order: 5, 12. */
uint32_t njerumoy_declination_uncertainty(float x, float y, float z, int32_t epoch_year,
                                          float *uncertainty);

/* The same by the first record of the epoch year in a lent list. Any year may be asked for; no other
 * record is looked at for refusal 12. Where H is zero the uncertainty is 180, whatever the figures.
 * Refusals, in this order: 15; 12, by any of the eight figures or the three components. */
uint32_t njerumoy_declination_uncertainty_listed(float x, float y, float z, int32_t epoch_year,
                                                 const struct njerumoy_error_record *records,
                                                 size_t records_length, float *uncertainty);

/* Grid variation, for the charts of the polar regions: declination minus longitude from 55 degrees
 * north on, declination plus longitude from 55 degrees south on, brought above -180 and up to 180 by
 * a whole turn at most. Due south is 180 and never -180. Elsewhere there is none.
 *
 * given         1 where there is one, 0 where there is none
 * variation     written only where there is one
 *
 * Refusals, in this order: 2, 3, 12. */
uint32_t njerumoy_grid_variation(float latitude_deg, float longitude_deg, float declination_deg,
                                 uint32_t *given, float *variation);

/* The correctly rounded square root. Refusal 12 for a NaN and for a number below zero; -0 and
 * infinity are their own roots. */
uint32_t njerumoy_square_root(float x, float *root);

#ifdef __cplusplus
}
#endif

#endif
