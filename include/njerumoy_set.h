/* Njerumoy, with the set in one piece: a set's lists and its epoch year go together, so that who
 * lends one names no year beside it. njerumoy_published.h has the two published sets in this form.
 *
 * Each function here but njerumoy_lent and njerumoy_lent_13 only hands the members on, to the function
 * of njerumoy.h or njerumoy_igrf.h that has its name without `_with`, `_into` or `_at`;
 * njerumoy_read_stored_into_13 to njerumoy_read_stored_either. What is said there of that one holds
 * here too: its answers, its refusals, and what the caller owes. These few lines are not proved; the
 * tests in bindings/c compare the two.
 */
#ifndef NJERUMOY_SET_H
#define NJERUMOY_SET_H

#include "njerumoy.h"
#include "njerumoy_igrf.h"

/* A coefficient set: the year that its lists are of, the four lists, and the length of each. It is of
 * degree 12 where all four are 90 long, and of degree 13 where all four are 104. */
struct njerumoy_set {
    int32_t epoch_year;
    const float *g, *h, *g_dot, *h_dot;
    size_t g_length, h_length, g_dot_length, h_dot_length;
};

/* A set of degree 12 that owns its lists: where a coefficient file or a stored set is read into. Its
 * year and its lists are written by one call, all of them or none, so that a year never parts from its
 * lists. */
struct njerumoy_owned_set {
    int32_t epoch_year;
    float g[NJERUMOY_LIST_LENGTH], h[NJERUMOY_LIST_LENGTH];
    float g_dot[NJERUMOY_LIST_LENGTH], h_dot[NJERUMOY_LIST_LENGTH];
};

static inline uint32_t njerumoy_read_cof_into(struct njerumoy_owned_set *set, const uint8_t *text,
                                              size_t text_length, size_t entry[2], size_t *line) {
    return njerumoy_read_cof(text, text_length, set->g, NJERUMOY_LIST_LENGTH, set->h,
                             NJERUMOY_LIST_LENGTH, set->g_dot, NJERUMOY_LIST_LENGTH, set->h_dot,
                             NJERUMOY_LIST_LENGTH, &set->epoch_year, entry, line);
}

static inline uint32_t njerumoy_read_stored_into(struct njerumoy_owned_set *set,
                                                 const uint8_t *stored, size_t stored_length,
                                                 size_t entry[2], size_t *place) {
    return njerumoy_read_stored(stored, stored_length, set->g, NJERUMOY_LIST_LENGTH, set->h,
                                NJERUMOY_LIST_LENGTH, set->g_dot, NJERUMOY_LIST_LENGTH, set->h_dot,
                                NJERUMOY_LIST_LENGTH, &set->epoch_year, entry, place);
}

/* One of degree 13. A stored set of degree 12 is refused by 23; then it can be read as above. */
struct njerumoy_owned_set_13 {
    int32_t epoch_year;
    float g[NJERUMOY_LIST_LENGTH_13], h[NJERUMOY_LIST_LENGTH_13];
    float g_dot[NJERUMOY_LIST_LENGTH_13], h_dot[NJERUMOY_LIST_LENGTH_13];
};

static inline uint32_t njerumoy_read_stored_into_13(struct njerumoy_owned_set_13 *set,
                                                    const uint8_t *stored, size_t stored_length,
                                                    size_t entry[2], size_t *place) {
    return njerumoy_read_stored_either(stored, stored_length, set->g, NJERUMOY_LIST_LENGTH_13,
                                       set->h, NJERUMOY_LIST_LENGTH_13, set->g_dot,
                                       NJERUMOY_LIST_LENGTH_13, set->h_dot, NJERUMOY_LIST_LENGTH_13,
                                       &set->epoch_year, entry, place);
}

/* An owned set as the calls below take it. It points into `set` and has the year of this moment:
 * after another set was read into `set`, lend it anew. */
static inline struct njerumoy_set njerumoy_lent(const struct njerumoy_owned_set *set) {
    const struct njerumoy_set lent = {
        set->epoch_year, set->g, set->h, set->g_dot, set->h_dot,
        NJERUMOY_LIST_LENGTH, NJERUMOY_LIST_LENGTH, NJERUMOY_LIST_LENGTH, NJERUMOY_LIST_LENGTH,
    };
    return lent;
}

static inline struct njerumoy_set njerumoy_lent_13(const struct njerumoy_owned_set_13 *set) {
    const struct njerumoy_set lent = {
        set->epoch_year,         set->g,
        set->h,                  set->g_dot,
        set->h_dot,              NJERUMOY_LIST_LENGTH_13,
        NJERUMOY_LIST_LENGTH_13, NJERUMOY_LIST_LENGTH_13,
        NJERUMOY_LIST_LENGTH_13,
    };
    return lent;
}

static inline uint32_t njerumoy_write_stored_with(const struct njerumoy_set *set, uint8_t *stored,
                                                  size_t stored_length, size_t entry[2]) {
    return njerumoy_write_stored(set->epoch_year, set->g, set->g_length, set->h, set->h_length,
                                 set->g_dot, set->g_dot_length, set->h_dot, set->h_dot_length,
                                 stored, stored_length, entry);
}

/* The same for a set of either degree. */
static inline uint32_t njerumoy_write_stored_either_with(const struct njerumoy_set *set,
                                                         uint8_t *stored, size_t stored_length,
                                                         size_t entry[2]) {
    return njerumoy_write_stored_either(set->epoch_year, set->g, set->g_length, set->h,
                                        set->h_length, set->g_dot, set->g_dot_length, set->h_dot,
                                        set->h_dot_length, stored, stored_length, entry);
}

/* Sine and cosine of one angle. */
struct njerumoy_pair {
    float sine, cosine;
};

static inline uint32_t njerumoy_sine_and_cosine_into(struct njerumoy_pair *pair, float degrees) {
    return njerumoy_sine_and_cosine(degrees, &pair->sine, &pair->cosine);
}

/* A place: its height in metres, its geodetic latitude and its longitude. */
struct njerumoy_place {
    float height;
    struct njerumoy_pair latitude, longitude;
};

static inline uint32_t njerumoy_field_with(const struct njerumoy_set *set,
                                           struct njerumoy_place place, int32_t year,
                                           int32_t day_of_year, float xyz[3], float errors[8],
                                           size_t entry[2], int32_t years[2]) {
    return njerumoy_field(place.height, place.latitude.sine, place.latitude.cosine,
                          place.longitude.sine, place.longitude.cosine, year, day_of_year,
                          set->epoch_year, set->g, set->g_length, set->h, set->h_length, set->g_dot,
                          set->g_dot_length, set->h_dot, set->h_dot_length, xyz, errors, entry,
                          years);
}

static inline uint32_t njerumoy_field_in_degrees_with(const struct njerumoy_set *set, float height,
                                                      float latitude_deg, float longitude_deg,
                                                      int32_t year, int32_t day_of_year,
                                                      float xyz[3], float errors[8],
                                                      size_t entry[2], int32_t years[2]) {
    return njerumoy_field_in_degrees(height, latitude_deg, longitude_deg, year, day_of_year,
                                     set->epoch_year, set->g, set->g_length, set->h, set->h_length,
                                     set->g_dot, set->g_dot_length, set->h_dot, set->h_dot_length,
                                     xyz, errors, entry, years);
}

static inline uint32_t njerumoy_field_listed_with(const struct njerumoy_set *set,
                                                  struct njerumoy_place place, int32_t year,
                                                  int32_t day_of_year,
                                                  const struct njerumoy_error_record *records,
                                                  size_t records_length, float xyz[3],
                                                  float errors[8], size_t entry[2],
                                                  int32_t years[2]) {
    return njerumoy_field_listed(place.height, place.latitude.sine, place.latitude.cosine,
                                 place.longitude.sine, place.longitude.cosine, year, day_of_year,
                                 set->epoch_year, set->g, set->g_length, set->h, set->h_length,
                                 set->g_dot, set->g_dot_length, set->h_dot, set->h_dot_length,
                                 records, records_length, xyz, errors, entry, years);
}

/* The place on earth is `at`; `place` is that in the bytes. */
static inline uint32_t njerumoy_field_stored_at(const uint8_t *stored, size_t stored_length,
                                                struct njerumoy_place at, int32_t year,
                                                int32_t day_of_year, float xyz[3], float errors[8],
                                                size_t entry[2], int32_t years[2], size_t *place) {
    return njerumoy_field_stored(stored, stored_length, at.height, at.latitude.sine,
                                 at.latitude.cosine, at.longitude.sine, at.longitude.cosine, year,
                                 day_of_year, xyz, errors, entry, years, place);
}

static inline uint32_t njerumoy_field_stored_either_at(const uint8_t *stored, size_t stored_length,
                                                       struct njerumoy_place at, int32_t year,
                                                       int32_t day_of_year, float xyz[3],
                                                       float errors[8], size_t entry[2],
                                                       int32_t years[2], size_t *place) {
    return njerumoy_field_stored_either(stored, stored_length, at.height, at.latitude.sine,
                                        at.latitude.cosine, at.longitude.sine, at.longitude.cosine,
                                        year, day_of_year, xyz, errors, entry, years, place);
}

static inline uint32_t njerumoy_allowance_with(const struct njerumoy_set *set,
                                               struct njerumoy_place place, int32_t year,
                                               int32_t day_of_year, float allowances[3],
                                               size_t entry[2], int32_t years[2]) {
    return njerumoy_allowance(place.height, place.latitude.sine, place.latitude.cosine,
                              place.longitude.sine, place.longitude.cosine, year, day_of_year,
                              set->epoch_year, set->g, set->g_length, set->h, set->h_length,
                              set->g_dot, set->g_dot_length, set->h_dot, set->h_dot_length,
                              allowances, entry, years);
}

static inline uint32_t njerumoy_rates_with(const struct njerumoy_set *set,
                                           struct njerumoy_place place, int32_t year,
                                           int32_t day_of_year, float rates[7], size_t entry[2],
                                           int32_t years[2]) {
    return njerumoy_rates(place.height, place.latitude.sine, place.latitude.cosine,
                          place.longitude.sine, place.longitude.cosine, year, day_of_year,
                          set->epoch_year, set->g, set->g_length, set->h, set->h_length, set->g_dot,
                          set->g_dot_length, set->h_dot, set->h_dot_length, rates, entry, years);
}

/* Of the profile. The rates of `second` are not asked: in it g_dot and h_dot may be anything, also
 * null. */
static inline uint32_t njerumoy_igrf_with(const struct njerumoy_set *first,
                                          const struct njerumoy_set *second,
                                          struct njerumoy_place place, int32_t year,
                                          int32_t day_of_year, float xyz[3], size_t entry[2],
                                          int32_t years[2]) {
    return njerumoy_igrf(place.height, place.latitude.sine, place.latitude.cosine,
                         place.longitude.sine, place.longitude.cosine, year, day_of_year,
                         first->epoch_year, first->g, first->g_length, first->h, first->h_length,
                         first->g_dot, first->g_dot_length, first->h_dot, first->h_dot_length,
                         second->epoch_year, second->g, second->g_length, second->h,
                         second->h_length, xyz, entry, years);
}

static inline uint32_t njerumoy_igrf_allowance_with(const struct njerumoy_set *first,
                                                    const struct njerumoy_set *second,
                                                    struct njerumoy_place place, int32_t year,
                                                    int32_t day_of_year, float allowances[3],
                                                    size_t entry[2], int32_t years[2]) {
    return njerumoy_igrf_allowance(place.height, place.latitude.sine, place.latitude.cosine,
                                   place.longitude.sine, place.longitude.cosine, year, day_of_year,
                                   first->epoch_year, first->g, first->g_length, first->h,
                                   first->h_length, first->g_dot, first->g_dot_length,
                                   first->h_dot, first->h_dot_length, second->epoch_year,
                                   second->g, second->g_length, second->h, second->h_length,
                                   allowances, entry, years);
}

static inline uint32_t njerumoy_igrf_rates_with(const struct njerumoy_set *first,
                                                const struct njerumoy_set *second,
                                                struct njerumoy_place place, int32_t year,
                                                int32_t day_of_year, float rates[7],
                                                size_t entry[2], int32_t years[2]) {
    return njerumoy_igrf_rates(place.height, place.latitude.sine, place.latitude.cosine,
                               place.longitude.sine, place.longitude.cosine, year, day_of_year,
                               first->epoch_year, first->g, first->g_length, first->h,
                               first->h_length, first->g_dot, first->g_dot_length, first->h_dot,
                               first->h_dot_length, second->epoch_year, second->g,
                               second->g_length, second->h, second->h_length, rates, entry, years);
}

/* The offset counts from the set's epoch: njerumoy_epoch gives both. The set's year is not asked. */
static inline uint32_t njerumoy_sum_with(const struct njerumoy_set *set,
                                         struct njerumoy_pair colatitude,
                                         struct njerumoy_pair longitude, float ratio, float offset,
                                         float xyz[3], size_t entry[2]) {
    return njerumoy_sum(colatitude.cosine, colatitude.sine, longitude.sine, longitude.cosine, ratio,
                        offset, set->g, set->g_length, set->h, set->h_length, set->g_dot,
                        set->g_dot_length, set->h_dot, set->h_dot_length, xyz, entry);
}

/* By the error figures of the set's own epoch year. xyz is what njerumoy_field_with wrote for it. */
static inline uint32_t njerumoy_declination_uncertainty_with(const struct njerumoy_set *set,
                                                             const float xyz[3], float *uncertainty) {
    return njerumoy_declination_uncertainty(xyz[0], xyz[1], xyz[2], set->epoch_year, uncertainty);
}

/* By the first record of the set's own epoch year. xyz is what njerumoy_field_listed_with wrote for
 * the set and the list. */
static inline uint32_t njerumoy_declination_uncertainty_listed_with(
    const struct njerumoy_set *set, const float xyz[3], const struct njerumoy_error_record *records,
    size_t records_length, float *uncertainty) {
    return njerumoy_declination_uncertainty_listed(xyz[0], xyz[1], xyz[2], set->epoch_year, records,
                                                   records_length, uncertainty);
}

#endif
