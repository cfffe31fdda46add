/* Tests of the yearly rates in the IGRF profile through the C headers: by hand, beside the oracle's
 * numbers and beside njerumoy_rates, where there are none, and what profile.h asks of every entry.
 * tools/test-library runs it. */
#include "profile.h"

enum { RATES = 7 };

static uint32_t ask(struct asked *q) {
    struct asked b = *q;
    const struct asked before = *q;
    const struct njerumoy_set first = set_of(&b.f), second = second_of(&b);
    const uint32_t with = njerumoy_igrf_rates_with(&first, &second, place_of(&b.f), b.f.year,
                                                   b.f.day, b.f.rates, b.f.entry, b.f.years);
    const uint32_t told = njerumoy_igrf_rates(
        q->f.height, q->f.sin_phi, q->f.cos_phi, q->f.sin_lambda, q->f.cos_lambda, q->f.year,
        q->f.day, q->f.epoch, q->f.lists[0], q->f.lengths[0], q->f.lists[1], q->f.lengths[1],
        q->f.lists[2], q->f.lengths[2], q->f.lists[3], q->f.lengths[3], q->second_epoch,
        q->second[0], q->second_lengths[0], q->second[1], q->second_lengths[1], q->f.rates,
        q->f.entry, q->f.years);
    CHECK(told == with && same(&q->f, &b.f) && kept_sets(q, &before));
    return told;
}

static int answered(struct asked *q) {
    struct asked b = *q;
    const int has = ask(q) == NJERUMOY_ANSWER;
    memcpy(b.f.rates, q->f.rates, sizeof b.f.rates);
    return has && same(&q->f, &b.f);
}

static struct asked without_sets(int32_t year, int32_t day) {
    struct asked q = on(year, day);
    memset(q.f.lists, 0, sizeof q.f.lists);
    memset(q.second, 0, sizeof q.second);
    return q;
}

/* ---- answers */

/* The bits are those of `igrf_rates` of the Rust oracle (oracle/src/igrf.rs) for the same questions: its
 * answers to the lines IRATES. They are the questions of test_igrf.c. */
static void test_oracle(void) {
    static const struct {
        int longer;
        int32_t year, day;
        float sin_phi, cos_phi;
        uint32_t bits[RATES];
    } rows[] = {
        {0, 2000, 1, 0.6f, 0.8f,
         {0x4202b89f, 0x429c04aa, 0xc128275b, 0x3e2bf0f4, 0xbd1520ab, 0x41d5080b, 0x410fa9ac}},
        {0, 2022, 200, 0.6f, 0.8f,
         {0x4202b89f, 0x429c04aa, 0xc128275b, 0x3e2b1588, 0xbd177980, 0x41d9cdc7, 0x41167ecd}},
        {1, 2013, 77, 0.6f, 0.8f,
         {0x41f8314a, 0x428bb70b, 0xc035f6ac, 0x3e196179, 0xbcf01c10, 0x41d1736c, 0x4169bf99}},
        {1, 2013, 77, 1.0f, 0.0f,
         {0x3fdbcdc3, 0x4287c7dd, 0x41d3fb33, 0x400b3b7e, 0x3bcb9a52, 0xc0aabaaa, 0x41d289b6}},
        {0, 2024, 366, 0.6f, 0.8f,
         {0x4202b89f, 0x429c04aa, 0xc128275b, 0x3e2a3f22, 0xbd19b41f, 0x41de5e17, 0x411d112a}},
        {0, 2025, 1, 0.6f, 0.8f,
         {0x41ce30cd, 0x429c63f9, 0xc10f9896, 0x3e29bb60, 0xbceea0fa, 0x41a7226d, 0x40d1be32}},
        {1, 2027, 100, 0.6f, 0.8f,
         {0x41ce30cd, 0x429c63f9, 0xc10f9896, 0x3e29312f, 0xbcf29a4c, 0x41ab1b09, 0x40dc8ab4}},
        {1, 2027, 100, 1.0f, 0.0f,
         {0x409b7eb9, 0x427d7ee1, 0x41b7ea7e, 0x4001d713, 0xbbd9aa28, 0x40ea63f7, 0x41b9a92b}},
        {0, 2029, 365, 0.6f, 0.8f,
         {0x41ce30cd, 0x429c63f9, 0xc10f9896, 0x3e286ab9, 0xbcf7d494, 0x41b04abf, 0x40eb2a4a}},
    };
    for (size_t i = 0; i < COUNT(rows); i++) {
        struct asked q = on(rows[i].year, rows[i].day);
        if (rows[i].longer) q = longer(q);
        q.f.sin_phi = rows[i].sin_phi;
        q.f.cos_phi = rows[i].cos_phi;
        CHECK(answered(&q) && memcmp(q.f.rates, rows[i].bits, sizeof q.f.rates) == 0);
    }
}

/* The field and the rates of test_rates.c's by_hand, on the first day of the epoch: with k the cube of
 * the radius ratio (30000, 40000, 120000) k and (50, 100, 52) k. The second set is five years of these
 * rates away, and they are the first set's own. */
static void test_by_hand(void) {
    static const struct {
        int list, index;
        float main, rate;
    } parts[] = {{0, 0, -30000, -50}, {0, 1, -60000, -26}, {1, 1, -40000, -100}};
    const double k = pow(6371200.0 / (6378137.0 + 1000.0), 3.0);
    const double exact[RATES] = {
        [NJERUMOY_RATE_X] = 50.0 * k,
        [NJERUMOY_RATE_Y] = 100.0 * k,
        [NJERUMOY_RATE_Z] = 52.0 * k,
        [NJERUMOY_RATE_DECLINATION] = (100.0 * 30.0 - 40.0 * 50.0) / 2.5e6 / RADIAN,
        [NJERUMOY_RATE_INCLINATION] = (52.0 * 50.0 - 120.0 * 110.0) / 1.69e7 / RADIAN,
        [NJERUMOY_RATE_H] = 110.0 * k,
        [NJERUMOY_RATE_F] = 11740.0 / 130.0 * k,
    };
    const int32_t years[] = {2000, 2015, 2025};
    for (size_t i = 0; i < COUNT(years); i++) {
        struct asked q = without_sets(years[i], 1);
        q.f.sin_phi = q.f.sin_lambda = 0.0f;
        q.f.cos_phi = q.f.cos_lambda = 1.0f;
        for (size_t j = 0; j < COUNT(parts); j++) {
            q.f.lists[parts[j].list][parts[j].index] = parts[j].main;
            q.f.lists[2 + parts[j].list][parts[j].index] = parts[j].rate;
            q.second[parts[j].list][parts[j].index] = parts[j].main + 5.0f * parts[j].rate;
        }
        CHECK(answered(&q));
        for (int j = 0; j < RATES; j++) CHECK(near(q.f.rates[j], exact[j], 1e-6 * fabs(exact[j])));
    }
}

/* What njerumoy_rates says of a set whose rates are a fifth of the gap, or from 2025 on of the first set
 * itself: to the bit, in either degree, all round and at the poles. It serves from 2020 on. */
static void test_beside_rates(void) {
    const int32_t years[] = {2020, 2023, 2025, 2028};
    for (int i = 0; i <= 60; i++) {
        struct asked q = on(years[i % 4], 1 + 5 * i), b;
        if (i / 4 % 2 != 0) q = longer(q);
        CHECK(njerumoy_sine_and_cosine(3.0f * (float)i - 90.0f, &q.f.sin_phi, &q.f.cos_phi) == 0);
        CHECK(njerumoy_sine_and_cosine(5.5f * (float)i - 165.0f, &q.f.sin_lambda, &q.f.cos_lambda) == 0);
        b = q;
        for (int k = 0; q.f.year < 2025 && k < N_13; k++) {
            for (int j = 0; j < 2; j++) {
                b.f.lists[2 + j][k] = (q.second[j][k] - q.f.lists[j][k]) / 5.0f;
            }
        }
        const struct njerumoy_set set = set_of(&b.f);
        CHECK(answered(&q) &&
              njerumoy_rates_with(&set, place_of(&b.f), b.f.year, b.f.day, b.f.rates, b.f.entry,
                                  b.f.years) == NJERUMOY_ANSWER);
        CHECK(alike(&q.f, &b.f));
    }
}

/* X, Y and Z change by the same on all days from one epoch to the next, to the bit; the other four do
 * not, since the field is another. */
static void test_days_of_an_epoch(void) {
    const int32_t epochs[] = {2010, 2025};
    for (size_t i = 0; i < COUNT(epochs); i++) {
        struct asked first = on(epochs[i], 1), last = on(epochs[i] + 4, 365);
        CHECK(answered(&first) && answered(&last));
        CHECK(memcmp(last.f.rates, first.f.rates, 3 * sizeof *first.f.rates) == 0);
        for (int k = NJERUMOY_RATE_DECLINATION; k < RATES; k++) {
            CHECK(first.f.rates[k] != last.f.rates[k]);
        }
    }
}

/* ---- where there are none */

/* Without a field, and at a pole by g_1^0 alone, which is down there, whatever it changes by. A little
 * of h_1^1 is an H, and then all are told. */
static void test_no_horizontal(void) {
    const int32_t years[] = {2000, 2024, 2025, 2029};
    for (size_t i = 0; i < COUNT(years); i++) {
        struct asked q = without_sets(years[i], 1);
        CHECK(refused(q, NJERUMOY_ZERO_DIVISOR));
        q.f.sin_phi = 1.0f;
        q.f.cos_phi = 0.0f;
        q.f.lists[0][0] = -30000.0f;
        q.f.lists[2][0] = 12.0f;
        q.second[0][0] = -29000.0f;
        CHECK(refused(q, NJERUMOY_ZERO_DIVISOR));
        q.f.lists[1][1] = 1e-12f;
        CHECK(answered(&q));
        for (int k = 0; k < RATES; k++) CHECK(isfinite(q.f.rates[k]));
    }
}

/* Each of the profile's refusals hides 21. */
static void test_before_21(void) {
    const int32_t years[] = {2003, 2027};
    for (size_t i = 0; i < COUNT(years); i++) {
        for (size_t k = 0; k < COUNT(PROFILES_OWN); k++) {
            struct asked q = without_sets(years[i], 300);
            if (!applies(PROFILES_OWN[k], years[i])) continue;
            spoil(&q, PROFILES_OWN[k]);
            CHECK(refused(q, PROFILES_OWN[k]));
        }
    }
}

int main(void) {
    test_oracle();
    test_by_hand();
    test_beside_rates();
    test_days_of_an_epoch();
    test_no_horizontal();
    test_before_21();
    test_profile();
    return outcome();
}
