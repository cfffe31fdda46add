/* The field at one place and day, with the published set of 2025.
 *
 *   tools/build-library
 *   cc -Iinclude examples/field.c target/library/$(uname -m)/libnjerumoy.a -o field && ./field
 */
#include <stdio.h>

#include "njerumoy_published.h"

int main(void) {
    const float height = 0.0f, latitude = 80.0f, longitude = 0.0f; /* metres, degrees */
    const int32_t year = 2025, day_of_year = 1;
    float xyz[3], errors[8], h, f;
    size_t entry[2];
    int32_t years[2];

    uint32_t refusal = njerumoy_field_in_degrees_with(&NJERUMOY_WMM2025, height, latitude, longitude,
                                                      year, day_of_year, xyz, errors, entry, years);
    if (refusal == 0) refusal = njerumoy_horizontal(xyz[0], xyz[1], xyz[2], &h);
    if (refusal == 0) refusal = njerumoy_total(xyz[0], xyz[1], xyz[2], &f);
    if (refusal != 0) {
        printf("refused: %u\n", (unsigned)refusal);
        return 1;
    }
    printf("X %.1f  Y %.1f  Z %.1f  H %.1f  F %.1f nT\n", (double)xyz[0], (double)xyz[1],
           (double)xyz[2], (double)h, (double)f);
    return 0;
}
