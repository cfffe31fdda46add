/* What the tests of stored sets share: the bytes of a set, by hand. */
#ifndef NJERUMOY_BYTES_H
#define NJERUMOY_BYTES_H

#include "check.h"

enum { STORED = NJERUMOY_STORED_LENGTH, ROOM = STORED + 43, HELD_BYTE = 0xa5 };

/* Bytes to read, or an output to write. */
struct bytes {
    size_t length;
    uint8_t at[ROOM];
};

/* Where each field begins. */
static const size_t FIELDS[5] = {0, 5, 368, 731, 1094};

static inline struct bytes held_bytes(size_t length) {
    struct bytes b;
    b.length = length;
    memset(b.at, HELD_BYTE, sizeof b.at);
    return b;
}

static inline void put_bits(struct bytes *b, size_t list, size_t index, uint32_t bits) {
    uint8_t *const at = b->at + FIELDS[list + 1] + 3 + 4 * index;
    for (int i = 0; i < 4; i++) at[i] = (uint8_t)(bits >> 8 * i);
}

static inline void put(struct bytes *b, size_t list, size_t index, float x) {
    uint32_t bits;
    memcpy(&bits, &x, sizeof bits);
    put_bits(b, list, index, bits);
}

/* The bytes of a set, by hand. */
static inline struct bytes bytes_of(const struct njerumoy_set *set) {
    const float *const lists[4] = {set->g, set->h, set->g_dot, set->h_dot};
    const uint8_t year[] = {1, 2, 0, (uint8_t)set->epoch_year, (uint8_t)(set->epoch_year >> 8)};
    struct bytes b = held_bytes(STORED);
    memcpy(b.at, year, sizeof year);
    for (size_t i = 0; i < 4; i++) {
        const uint8_t head[] = {(uint8_t)(2 + i), 360 - 256, 1};
        memcpy(b.at + FIELDS[i + 1], head, sizeof head);
        for (size_t j = 0; j < N; j++) put(&b, i, j, lists[i][j]);
    }
    return b;
}

static inline struct bytes bytes_of_2025(void) { return bytes_of(&NJERUMOY_WMM2025); }

#endif
