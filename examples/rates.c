/* The yearly change of the field at one place and day, with the published set of 2025: what is added
 * to an old sheet for each year.
 *
 *   tools/build-library
 *   cc -Iinclude examples/rates.c target/library/$(uname -m)/libnjerumoy.a -o rates && ./rates
 */
#include <stdio.h>

#include "njerumoy_published.h"

int main(void) {
    struct njerumoy_place place = {.height = 0.0f}; /* in metres */
    const int32_t year = 2025, day_of_year = 1;
    float rates[7];
    size_t entry[2];
    int32_t years[2];

    uint32_t refusal = njerumoy_sine_and_cosine_into(&place.latitude, 80.0f); /* degrees */
    if (refusal == 0) refusal = njerumoy_sine_and_cosine_into(&place.longitude, 0.0f);
    if (refusal == 0) {
        refusal = njerumoy_rates_with(&NJERUMOY_WMM2025, place, year, day_of_year, rates, entry,
                                      years);
    }
    if (refusal != 0) {
        printf("refused: %u\n", (unsigned)refusal);
        return 1;
    }
    printf("X %+.1f  Y %+.1f  Z %+.1f  H %+.1f  F %+.1f nT/yr  D %+.3f  I %+.3f deg/yr\n",
           (double)rates[NJERUMOY_RATE_X], (double)rates[NJERUMOY_RATE_Y],
           (double)rates[NJERUMOY_RATE_Z], (double)rates[NJERUMOY_RATE_H],
           (double)rates[NJERUMOY_RATE_F], (double)rates[NJERUMOY_RATE_DECLINATION],
           (double)rates[NJERUMOY_RATE_INCLINATION]);
    return 0;
}
