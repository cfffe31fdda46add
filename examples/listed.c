/* The field at one place and day, with error figures from a lent list: a new edition of them needs no
 * new library. The figures of this list are made up.
 *
 *   tools/build-library
 *   cc -Iinclude examples/listed.c target/library/$(uname -m)/libnjerumoy.a -o listed && ./listed
 */
#include <stdio.h>

#include "njerumoy_published.h"

/* Its year, then the figures: the declination's sigma_c and sigma_v, inclination, F, H, X, Y, Z. The
 * first record of the day's epoch year is used. */
static const struct njerumoy_error_record RECORDS[] = {
    {2020, 0.26f, 5600.0f, 0.21f, 140.0f, 125.0f, 128.0f, 92.0f, 150.0f},
    {2025, 0.25f, 5000.0f, 0.18f, 130.0f, 125.0f, 131.0f, 85.0f, 135.0f},
};
static const size_t COUNT = sizeof RECORDS / sizeof *RECORDS;

int main(void) {
    const struct njerumoy_set *const set = &NJERUMOY_WMM2025;
    struct njerumoy_place place = {.height = 0.0f}; /* in metres */
    const int32_t year = 2025, day_of_year = 1;
    float xyz[3], errors[8], uncertainty;
    size_t entry[2];
    int32_t years[2];

    uint32_t refusal = njerumoy_sine_and_cosine_into(&place.latitude, 80.0f); /* degrees */
    if (refusal == 0) refusal = njerumoy_sine_and_cosine_into(&place.longitude, 0.0f);
    if (refusal == 0) {
        refusal = njerumoy_field_listed_with(set, place, year, day_of_year, RECORDS, COUNT, xyz,
                                             errors, entry, years);
    }
    if (refusal == 0) {
        refusal =
            njerumoy_declination_uncertainty_listed_with(set, xyz, RECORDS, COUNT, &uncertainty);
    }
    if (refusal != 0) {
        printf("refused: %u\n", (unsigned)refusal);
        return 1;
    }
    printf("X %.1f +- %.0f  Y %.1f +- %.0f  Z %.1f +- %.0f nT  D +- %.2f deg\n", (double)xyz[0],
           (double)errors[NJERUMOY_ERROR_X], (double)xyz[1], (double)errors[NJERUMOY_ERROR_Y],
           (double)xyz[2], (double)errors[NJERUMOY_ERROR_Z], (double)uncertainty);
    return 0;
}
