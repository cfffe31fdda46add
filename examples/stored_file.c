/* Hands the bytes of a stored set to the library. Refused bytes are explained: which byte, what
 * stands there, and what should. */
#include "stored_file.h"

#include <stdio.h>
#include <stdlib.h>
#include <string.h>

#include "cof.h"
#include "files.h"

/* A field is a head of tag and length, and its content: the year, or one of the four lists. */
enum { HEAD = 3, YEAR = 2, LIST = 4 * NJERUMOY_LIST_LENGTH };

/* Which field a place stands in: 0 is that of the year. */
static size_t field_of(size_t place) {
    return place < HEAD + YEAR ? 0 : 1 + (place - (HEAD + YEAR)) / (HEAD + LIST);
}

static void show_head(uint32_t refusal, const uint8_t *bytes, size_t place) {
    static const char *const CONTENTS[] = {"the epoch year", "g", "h", "g_dot", "h_dot"};
    const size_t field = field_of(place);
    if (refusal == NJERUMOY_WRONG_TAG) {
        printf("byte %zu is %d and should be %zu, the tag of %s", place, bytes[place], field + 1,
               CONTENTS[field]);
    } else {
        printf("bytes %zu and %zu say %d and should say %d, the length of %s", place, place + 1,
               bytes[place] + 256 * bytes[place + 1], field == 0 ? YEAR : LIST, CONTENTS[field]);
    }
}

static void show_end(size_t place) {
    if (place < NJERUMOY_STORED_LENGTH) {
        printf("the file ends before byte %zu", place);
    } else {
        printf("byte %zu is left over", place);
    }
    printf(": a stored set has %d bytes", NJERUMOY_STORED_LENGTH);
}

static void show_over_cap(const uint8_t *bytes, const size_t entry[2]) {
    const size_t place = (HEAD + YEAR) + entry[0] * (HEAD + LIST) + HEAD + 4 * entry[1];
    uint32_t bits = 0;
    float number;
    for (size_t i = 4; i > 0; i--) bits = bits << 8 | bytes[place + i - 1];
    memcpy(&number, &bits, sizeof number);
    printf("bytes %zu to %zu have %.9g ", place, place + 3, (double)number);
    show_cap(entry);
}

int read_stored_file(const char *path, struct njerumoy_owned_set *set) {
    size_t length, entry[2], place;
    uint8_t *const bytes = read_file(path, &length);
    if (bytes == NULL) return 2;

    const uint32_t refusal = njerumoy_read_stored_into(set, bytes, length, entry, &place);
    if (refusal != NJERUMOY_ANSWER) {
        printf("refusal %u: ", (unsigned)refusal);
        if (refusal == NJERUMOY_COEFFICIENT) {
            show_over_cap(bytes, entry);
        } else if (refusal == NJERUMOY_WRONG_END) {
            show_end(place);
        } else {
            show_head(refusal, bytes, place);
        }
        putchar('\n');
    }
    free(bytes);
    return refusal != NJERUMOY_ANSWER;
}

/* There is room, and the set was read: of the refusals only that of the year is left. */
int write_stored_file(const char *path, const struct njerumoy_owned_set *set) {
    const struct njerumoy_set lent = njerumoy_lent(set);
    uint8_t bytes[NJERUMOY_STORED_LENGTH];
    size_t entry[2];
    const uint32_t refusal = njerumoy_write_stored_with(&lent, bytes, sizeof bytes, entry);
    if (refusal != NJERUMOY_ANSWER) {
        printf("refusal %u: the epoch year %d cannot be stored: it is not from 0 to 65535\n",
               (unsigned)refusal, (int)set->epoch_year);
        return 1;
    }
    if (!write_file(path, bytes, sizeof bytes)) return 2;
    printf("%s: a stored set of %zu bytes, epoch %d\n", path, sizeof bytes, (int)set->epoch_year);
    return 0;
}
