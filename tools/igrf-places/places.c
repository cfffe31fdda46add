/* X, Y and Z of the library for tools/igrf-places/run: of each line on standard input, latitude and
 * longitude in degrees, height in metres, year and day, with the sets of a table. Sines and cosines are
 * lent as the oracle's test lends them, the floats nearest to those in double precision, so that the
 * answers are the test's to the bit. */
#include <math.h>
#include <stdio.h>

#include "../../examples/igrf_table.h"

static struct njerumoy_pair pair_of(double degrees) {
    const double radians = degrees * 0.017453292519943295769;
    const struct njerumoy_pair pair = {(float)sin(radians), (float)cos(radians)};
    return pair;
}

/* Whether the line has an answer. */
static int print_answer(const char *table, struct njerumoy_place place, int year, int day) {
    static struct igrf_sets sets;
    float xyz[3];
    size_t entry[2];
    int32_t years[2];
    if (read_igrf_table(table, year, &sets) != 0) return 0;
    const struct njerumoy_set first = lent_of_table(&sets, &sets.first);
    const struct njerumoy_set second = lent_of_table(&sets, &sets.second);
    if (njerumoy_igrf_with(&first, &second, place, year, day, xyz, entry, years) != 0) return 0;
    printf("%.3f %.3f %.3f\n", (double)xyz[0], (double)xyz[1], (double)xyz[2]);
    return 1;
}

int main(int count, char **words) {
    double lat, lon, height;
    int year, day;
    if (count != 2) return 2;
    while (scanf("%lf %lf %lf %d %d", &lat, &lon, &height, &year, &day) == 5) {
        const struct njerumoy_place place = {(float)height, pair_of(lat), pair_of(lon)};
        if (!print_answer(words[1], place, year, day)) return 1;
    }
    return 0;
}
