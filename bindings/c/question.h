/* What the tests of Field share: a question, and whether its places hold what they held. */
#ifndef NJERUMOY_QUESTION_H
#define NJERUMOY_QUESTION_H

#include <math.h>

#include "check.h"

static const double RADIAN = 0.017453292519943295769;

/* A place, a day and a set, and all that a call is lent for its results. A list has room for a degree
 * more. */
struct field {
    float height, sin_phi, cos_phi, sin_lambda, cos_lambda;
    int32_t year, day, epoch;
    float lists[4][N_13];
    size_t lengths[4];
    float xyz[3], errors[8], allowances[3], rates[7];
    size_t entry[2];
    int32_t years[2];
};

/* 80 north, 0 east, sea level, the first day of 2025: an accepted question. */
static inline struct field question(void) {
    struct field q;
    const float phi = 80.0f * (float)RADIAN;
    q.height = 0.0f;
    q.sin_phi = sinf(phi);
    q.cos_phi = cosf(phi);
    q.sin_lambda = 0.0f;
    q.cos_lambda = 1.0f;
    q.year = 2025;
    q.day = 1;
    q.epoch = 2025;
    memset(q.lists, 0, sizeof q.lists);
    memcpy(q.lists[0], njerumoy_wmm2025_g, sizeof njerumoy_wmm2025_g);
    memcpy(q.lists[1], njerumoy_wmm2025_h, sizeof njerumoy_wmm2025_h);
    memcpy(q.lists[2], njerumoy_wmm2025_g_dot, sizeof njerumoy_wmm2025_g_dot);
    memcpy(q.lists[3], njerumoy_wmm2025_h_dot, sizeof njerumoy_wmm2025_h_dot);
    for (int i = 0; i < 4; i++) q.lengths[i] = N;
    for (int i = 0; i < 3; i++) q.xyz[i] = q.allowances[i] = HELD;
    for (int i = 0; i < 8; i++) q.errors[i] = HELD;
    for (int i = 0; i < 7; i++) q.rates[i] = HELD;
    for (int i = 0; i < 2; i++) q.entry[i] = HELD_SIZE;
    for (int i = 0; i < 2; i++) q.years[i] = HELD_YEAR;
    return q;
}

/* Field's own refusals, in their order. */
static const uint32_t FIELDS_OWN[] = {1, 2, 3, 4, 5, 6, 23, 7, 8};

/* Alters a question so that Field refuses it by one of them. */
static inline void refuse_by(struct field *q, uint32_t number) {
    switch (number) {
        case NJERUMOY_HEIGHT: q->height = 850001.0f; break;
        case NJERUMOY_LATITUDE: q->cos_phi = -q->cos_phi; break;
        case NJERUMOY_LONGITUDE: q->cos_lambda = 0.5f; break;
        case NJERUMOY_DAY_OF_YEAR: q->day = 366; break;
        case NJERUMOY_EPOCH_YEAR: q->year = 2030; break;
        case NJERUMOY_LENGTH: q->lengths[2] = 89; break;
        case NJERUMOY_DEGREE: q->lengths[1] = N_13; break;
        case NJERUMOY_COEFFICIENT: q->lists[3][89] = -4097.0f; break;
        default: q->epoch = 2020; break;
    }
}

static inline int near(float x, double exact, double most) {
    return fabs((double)x - exact) <= most;
}

static inline struct njerumoy_set set_of(const struct field *q) {
    const struct njerumoy_set set = {
        q->epoch,      q->lists[0],   q->lists[1],   q->lists[2],   q->lists[3],
        q->lengths[0], q->lengths[1], q->lengths[2], q->lengths[3],
    };
    return set;
}

static inline struct njerumoy_place place_of(const struct field *q) {
    const struct njerumoy_place place = {
        q->height, {q->sin_phi, q->cos_phi}, {q->sin_lambda, q->cos_lambda}};
    return place;
}

/* The same bits in all places that a call is lent, and in the lists. */
static inline int same(const struct field *a, const struct field *b) {
    return memcmp(a->xyz, b->xyz, sizeof a->xyz) == 0 &&
           memcmp(a->errors, b->errors, sizeof a->errors) == 0 &&
           memcmp(a->allowances, b->allowances, sizeof a->allowances) == 0 &&
           memcmp(a->rates, b->rates, sizeof a->rates) == 0 &&
           memcmp(a->entry, b->entry, sizeof a->entry) == 0 &&
           memcmp(a->years, b->years, sizeof a->years) == 0 &&
           memcmp(a->lists, b->lists, sizeof a->lists) == 0;
}

static inline int kept_results(const struct field *q) {
    int kept = 1;
    for (int i = 0; i < 3; i++) kept = kept && q->xyz[i] == HELD && q->allowances[i] == HELD;
    for (int i = 0; i < 8; i++) kept = kept && q->errors[i] == HELD;
    for (int i = 0; i < 7; i++) kept = kept && q->rates[i] == HELD;
    return kept;
}

static inline int kept_entry(const struct field *q) {
    return q->entry[0] == HELD_SIZE && q->entry[1] == HELD_SIZE;
}

static inline int kept_years(const struct field *q) {
    return q->years[0] == HELD_YEAR && q->years[1] == HELD_YEAR;
}

static inline int kept_all(const struct field *q, uint32_t number) {
    return kept_results(q) && (number == 7 || kept_entry(q)) && (number == 8 || kept_years(q));
}

#endif
