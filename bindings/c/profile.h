/* What the tests of the IGRF profile share: a question with two sets, and all that is the same whichever
 * entry is asked: each refusal, and in which order; what a refusal carries, and that the places keep
 * what they held otherwise; and that nothing is looked at which is not read. A test has `ask` and
 * `answered` of its own and calls test_profile. */
#ifndef NJERUMOY_PROFILE_H
#define NJERUMOY_PROFILE_H

#include "question.h"

/* What Field is asked, and the second set. Its g and h are the lists 4 and 5. */
struct asked {
    struct field f;
    int32_t second_epoch;
    float second[2][N_13];
    size_t second_lengths[2];
};

/* The lists are those of the published sets, whatever the day: that of 2020 and, as the second one and
 * from 2025 on as the first, that of 2025, its rates above degree 8 made zero. The years are right. */
static inline struct asked on(int32_t year, int32_t day) {
    struct asked q;
    q.f = question();
    q.f.height = 1000.0f;
    q.f.sin_phi = 0.6f;
    q.f.cos_phi = 0.8f;
    q.f.sin_lambda = -0.28f;
    q.f.cos_lambda = 0.96f;
    q.f.year = year;
    q.f.day = day;
    q.f.epoch = year / 5 * 5;
    q.second_epoch = q.f.epoch + 5;
    memset(q.second, 0, sizeof q.second);
    memcpy(q.second[0], njerumoy_wmm2025_g, sizeof njerumoy_wmm2025_g);
    memcpy(q.second[1], njerumoy_wmm2025_h, sizeof njerumoy_wmm2025_h);
    q.second_lengths[0] = q.second_lengths[1] = N;
    if (year < 2025) {
        memcpy(q.f.lists[0], njerumoy_wmm2020_g, sizeof njerumoy_wmm2020_g);
        memcpy(q.f.lists[1], njerumoy_wmm2020_h, sizeof njerumoy_wmm2020_h);
    }
    for (int i = 44; i < N; i++) q.f.lists[2][i] = q.f.lists[3][i] = 0.0f;
    return q;
}

/* The same in degree 13. The new entries are exact. */
static inline struct asked longer(struct asked q) {
    for (int i = 0; i < 4; i++) q.f.lengths[i] = N_13;
    q.second_lengths[0] = q.second_lengths[1] = N_13;
    for (int k = 0; k < N_13 - N; k++) {
        q.f.lists[0][N + k] = 0.25f * (float)(k - 6);
        q.f.lists[1][N + k] = 0.125f * (float)(7 - k);
        q.second[0][N + k] = 0.5f * (float)(k - 3);
        q.second[1][N + k] = -0.25f * (float)(k + 1);
    }
    return q;
}

static inline float *list(struct asked *q, size_t i) {
    return i < 4 ? q->f.lists[i] : q->second[i - 4];
}

static inline size_t *length(struct asked *q, size_t i) {
    return i < 4 ? &q->f.lengths[i] : &q->second_lengths[i - 4];
}

/* The four lists that are read on a day, by their numbers in `entry`, and the two that are not. */
static const size_t BETWEEN[] = {0, 1, 4, 5, 2, 3}, FORECAST[] = {0, 1, 2, 3, 4, 5};

static inline const size_t *numbers(const struct asked *q) {
    return q->f.year < 2025 ? BETWEEN : FORECAST;
}

/* Asks in both forms, with loose lists and with the sets in one piece: all that is told must be the same,
 * bit for bit, and the lists hold afterwards what they held. Then the number. */
static uint32_t ask(struct asked *q);

/* Whether there is an answer, and nothing is written but it. */
static int answered(struct asked *q);

/* The second set in one piece. Its rates are never asked. */
static inline struct njerumoy_set second_of(const struct asked *q) {
    const struct njerumoy_set second = {
        q->second_epoch,      q->second[0],         q->second[1], NULL, NULL,
        q->second_lengths[0], q->second_lengths[1], 0,            0,
    };
    return second;
}

static inline int kept_sets(const struct asked *q, const struct asked *before) {
    return memcmp(q->f.lists, before->f.lists, sizeof before->f.lists) == 0 &&
           memcmp(q->second, before->second, sizeof before->second) == 0;
}

/* Nothing is written but what the refusal carries. */
static inline int refused(struct asked q, uint32_t number) {
    return ask(&q) == number && kept_all(&q.f, number);
}

static inline int refused_entry(struct asked q, size_t list, size_t index) {
    return ask(&q) == NJERUMOY_COEFFICIENT && kept_all(&q.f, NJERUMOY_COEFFICIENT) &&
           q.f.entry[0] == list && q.f.entry[1] == index;
}

static inline int refused_years(struct asked q, int32_t needed, int32_t of_set) {
    return ask(&q) == NJERUMOY_OTHER_EPOCH && kept_all(&q.f, NJERUMOY_OTHER_EPOCH) &&
           q.f.years[0] == needed && q.f.years[1] == of_set;
}

/* ---- what is not read */

/* The same bits in all places for results. */
static inline int alike(const struct field *a, const struct field *b) {
    return memcmp(a->xyz, b->xyz, sizeof a->xyz) == 0 &&
           memcmp(a->allowances, b->allowances, sizeof a->allowances) == 0 &&
           memcmp(a->rates, b->rates, sizeof a->rates) == 0;
}

/* Numbers and lengths that are not read do no harm, and change no bit. */
static inline void test_not_read(void) {
    const int32_t years[] = {2000, 2024, 2025, 2029};
    for (size_t i = 0; i < COUNT(years); i++) {
        struct asked q = on(years[i], 100), spoilt = q;
        for (int j = 4; j < 6; j++) {
            for (int k = 0; k < N_13; k++) list(&spoilt, numbers(&q)[j])[k] = NAN;
        }
        if (years[i] >= 2025) spoilt.second_epoch = INT32_MAX;
        CHECK(answered(&q) && answered(&spoilt) && alike(&q.f, &spoilt.f));
        *length(&spoilt, numbers(&q)[4]) = 0;
        *length(&spoilt, numbers(&q)[5]) = N_13;
        CHECK(answered(&spoilt) && alike(&q.f, &spoilt.f));
    }
}

/* ---- refusals */

/* Alters a question so that it is refused by one of the profile's, of a day before 2025 by its second
 * set where that can be. */
static inline void spoil(struct asked *q, uint32_t number) {
    const size_t last = numbers(q)[3];
    switch (number) {
        case NJERUMOY_LENGTH: *length(q, last) = 89; break;
        case NJERUMOY_DEGREE: *length(q, numbers(q)[2]) = N_13; break;
        case NJERUMOY_RATE_ABOVE_EIGHT: q->f.lists[3][44] = 0x1p-149f; break;
        case NJERUMOY_COEFFICIENT: list(q, last)[43] = -65537.0f; break;
        case NJERUMOY_OTHER_EPOCH: *(last == 5 ? &q->second_epoch : &q->f.epoch) = 1995; break;
        default: refuse_by(&q->f, number); break;
    }
}

/* The profile's own, in their order. 22 is of days from 2025 on. */
static const uint32_t PROFILES_OWN[] = {1, 2, 3, 4, 5, 6, 23, 22, 7, 8};

static inline int applies(uint32_t number, int32_t year) {
    return number != NJERUMOY_RATE_ABOVE_EIGHT || 2025 <= year;
}

/* Each by itself, and the order from the last to the first. */
static inline void test_order(void) {
    const int32_t years[] = {2003, 2023, 2025, 2029};
    for (size_t i = 0; i < COUNT(years); i++) {
        struct asked behind = on(years[i], 300);
        for (size_t k = COUNT(PROFILES_OWN); k-- > 0;) {
            const uint32_t number = PROFILES_OWN[k];
            if (!applies(number, years[i])) continue;
            struct asked q = on(years[i], 300);
            spoil(&q, number);
            spoil(&behind, number);
            CHECK(refused(q, number));
            CHECK(refused(behind, number));
        }
    }
}

/* Days outside the profile, and days that a year does not have. */
static inline void test_days(void) {
    struct asked q = on(1999, 365);
    CHECK(refused(q, NJERUMOY_EPOCH_YEAR));
    q = on(2030, 1);
    CHECK(refused(q, NJERUMOY_EPOCH_YEAR));
    q = on(2000, 366);
    CHECK(answered(&q));
    q = on(2001, 366);
    CHECK(refused(q, NJERUMOY_DAY_OF_YEAR));
    q = on(2029, 0);
    CHECK(refused(q, NJERUMOY_DAY_OF_YEAR));
}

/* In every list that is read: its length, its entries with their caps, and where they stand. */
static inline void test_lists(void) {
    const int32_t years[] = {2010, 2025};
    for (size_t i = 0; i < COUNT(years); i++) {
        for (size_t j = 0; j < 4; j++) {
            const struct asked good = on(years[i], 1);
            const size_t of = numbers(&good)[j];
            const float cap = of == 2 || of == 3 ? 4096.0f : 65536.0f;
            struct asked q = good;
            *length(&q, of) = 91;
            CHECK(refused(q, NJERUMOY_LENGTH));
            *length(&q, of) = N_13;
            CHECK(refused(q, NJERUMOY_DEGREE));
            for (size_t k = 0; k < 44; k++) {
                struct asked at_cap = good;
                list(&at_cap, of)[k] = -cap;
                CHECK(answered(&at_cap));
                q = good;
                list(&q, of)[k] = nextafterf(cap, INFINITY);
                CHECK(refused_entry(q, of, k));
                list(&q, of)[k] = NAN;
                CHECK(refused_entry(q, of, k));
            }
        }
    }
}

/* 22 by every place above degree 8, and only from 2025 on. A zero of either sign is one. */
static inline void test_still(void) {
    for (size_t i = 2; i < 4; i++) {
        for (size_t k = 44; k < N_13; k++) {
            struct asked q = longer(on(2026, 1)), early = longer(on(2021, 1));
            q.f.lists[i][k] = -0.0f;
            CHECK(answered(&q));
            q = longer(on(2026, 1));
            q.f.lists[i][k] = early.f.lists[i][k] = 0x1p-149f;
            CHECK(refused(q, NJERUMOY_RATE_ABOVE_EIGHT));
            CHECK(answered(&early));
            q.f.lists[i][k] = NAN;
            CHECK(refused(q, NJERUMOY_RATE_ABOVE_EIGHT));
        }
    }
}

/* The year that is needed and the set's own: of the first set, then of the second. */
static inline void test_years(void) {
    struct asked q = on(2017, 5);
    q.f.epoch = 2020;
    CHECK(refused_years(q, 2015, 2020));
    q.second_epoch = 2015;
    CHECK(refused_years(q, 2015, 2020));
    q.f.epoch = 2015;
    CHECK(refused_years(q, 2020, 2015));
    q.second_epoch = INT32_MIN;
    CHECK(refused_years(q, 2020, INT32_MIN));
    q = on(2025, 5);
    q.f.epoch = 2020;
    CHECK(refused_years(q, 2025, 2020));
}

static inline void test_profile(void) {
    test_not_read();
    test_order();
    test_days();
    test_lists();
    test_still();
    test_years();
}

#endif
