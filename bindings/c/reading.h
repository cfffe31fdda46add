/* What the tests of the readers share: all that a call is lent, and whether it holds what it held. */
#ifndef NJERUMOY_READING_H
#define NJERUMOY_READING_H

#include "check.h"

/* A list has more floats than a set, for a length that is too long. `where` is lent for the line of a
 * coefficient file, or for the place in a stored set. */
struct reading {
    float lists[4][N_13];
    size_t lengths[4];
    int32_t epoch_year;
    size_t entry[2], where;
};

static inline struct reading held(void) {
    struct reading r;
    for (int list = 0; list < 4; list++) {
        r.lengths[list] = N;
        for (int i = 0; i < N_13; i++) r.lists[list][i] = HELD;
    }
    r.epoch_year = HELD_YEAR;
    r.entry[0] = r.entry[1] = r.where = HELD_SIZE;
    return r;
}

static inline struct njerumoy_owned_set held_set(void) {
    struct njerumoy_owned_set own;
    own.epoch_year = HELD_YEAR;
    for (int i = 0; i < N; i++) own.g[i] = own.h[i] = own.g_dot[i] = own.h_dot[i] = HELD;
    return own;
}

/* The same bits in a set's four lists and its year. */
static inline int same_set(const struct reading *r, const struct njerumoy_set *set) {
    const float *const lists[4] = {set->g, set->h, set->g_dot, set->h_dot};
    int same = r->epoch_year == set->epoch_year;
    for (int i = 0; i < 4; i++) same = same && memcmp(r->lists[i], lists[i], N * sizeof(float)) == 0;
    return same;
}

/* Whether a set in one piece, with the `entry` and `where` of `b`, was told what `r` was told. */
static inline int told_alike(const struct reading *r, const struct njerumoy_owned_set *own,
                             const struct reading *b) {
    const struct njerumoy_set set = njerumoy_lent(own);
    return set.g_length == N && set.h_length == N && set.g_dot_length == N &&
           set.h_dot_length == N && same_set(r, &set) && r->where == b->where &&
           memcmp(r->entry, b->entry, sizeof b->entry) == 0;
}

static inline int kept_carried(const struct reading *r) {
    return r->where == HELD_SIZE && r->entry[0] == HELD_SIZE && r->entry[1] == HELD_SIZE;
}

static inline int carries_where(uint32_t number) {
    return number == NJERUMOY_MALFORMED || number == NJERUMOY_OUT_OF_ORDER ||
           number == NJERUMOY_WRONG_TAG || number == NJERUMOY_WRONG_LENGTH ||
           number == NJERUMOY_WRONG_END;
}

/* The lists and the year as they were; `entry` and `where` too, but for what the refusal carries. */
static inline int kept(const struct reading *r, uint32_t number) {
    struct reading before = held();
    if (carries_where(number)) before.where = r->where;
    if (number == NJERUMOY_COEFFICIENT) memcpy(before.entry, r->entry, sizeof before.entry);
    return memcmp(r->lists, before.lists, sizeof before.lists) == 0 &&
           r->epoch_year == before.epoch_year && r->where == before.where &&
           memcmp(r->entry, before.entry, sizeof before.entry) == 0;
}

#endif
