/* The field at one place and day, from a stored set: the published set of 2025 is written to a file,
 * and what is read of that file is handed to the library as it is.
 *
 *   tools/build-library
 *   cc -Iinclude examples/stored.c target/library/$(uname -m)/libnjerumoy.a -o stored
 *   ./stored WMM2025.set
 */
#include <stdio.h>

#include "njerumoy_published.h"

/* Whether the file holds the set. A full disk can show only when the file is closed. */
static int store(const char *path) {
    uint8_t bytes[NJERUMOY_STORED_LENGTH];
    size_t entry[2];
    if (njerumoy_write_stored_with(&NJERUMOY_WMM2025, bytes, sizeof bytes, entry) != 0) return 0;
    FILE *const file = fopen(path, "wb");
    if (file == NULL) return 0;
    const size_t written = fwrite(bytes, 1, sizeof bytes, file);
    return fclose(file) == 0 && written == sizeof bytes;
}

/* The file's bytes, up to the room: a byte more than a set has, so that a longer file is refused. */
static size_t load(const char *path, uint8_t *bytes, size_t room) {
    FILE *const file = fopen(path, "rb");
    if (file == NULL) return 0;
    const size_t length = fread(bytes, 1, room, file);
    fclose(file);
    return length;
}

static uint32_t field_of(const uint8_t *bytes, size_t length, float xyz[3]) {
    const int32_t year = 2025, day_of_year = 1;
    struct njerumoy_place at = {.height = 0.0f}; /* in metres */
    float errors[8];
    size_t entry[2], place;
    int32_t years[2];

    uint32_t refusal = njerumoy_sine_and_cosine_into(&at.latitude, 80.0f); /* degrees */
    if (refusal == 0) refusal = njerumoy_sine_and_cosine_into(&at.longitude, 0.0f);
    if (refusal == 0) {
        refusal = njerumoy_field_stored_at(bytes, length, at, year, day_of_year, xyz, errors, entry,
                                           years, &place);
    }
    return refusal;
}

int main(int count, char **words) {
    uint8_t bytes[NJERUMOY_STORED_LENGTH + 1];
    float xyz[3], h, f;

    if (count != 2) {
        fputs("usage: stored FILE\n", stderr);
        return 2;
    }
    if (!store(words[1])) {
        perror(words[1]);
        return 2;
    }
    uint32_t refusal = field_of(bytes, load(words[1], bytes, sizeof bytes), xyz);
    if (refusal == 0) refusal = njerumoy_horizontal(xyz[0], xyz[1], xyz[2], &h);
    if (refusal == 0) refusal = njerumoy_total(xyz[0], xyz[1], xyz[2], &f);
    if (refusal != 0) {
        printf("refused: %u\n", (unsigned)refusal);
        return 1;
    }
    printf("X %.1f  Y %.1f  Z %.1f  H %.1f  F %.1f nT\n", (double)xyz[0], (double)xyz[1],
           (double)xyz[2], (double)h, (double)f);
    return 0;
}
