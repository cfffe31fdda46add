/* Tests of sets of degree 13 through the C headers: lists of 104 in every call that takes lists, beside
 * the oracle's numbers, by hand, and beside degree 12 where the new entries are zero; and the refusals
 * of lists by their lengths and by the new entries. The set is lent in one piece: test.c and its
 * neighbours compare that with loose lists. tools/test-library runs it. */
#include "question.h"

/* 80 north becomes this place, on a day of the same epoch. */
static struct field elsewhere(struct field q, float sin_phi, float cos_phi) {
    q.height = 1000.0f;
    q.sin_phi = sin_phi;
    q.cos_phi = cos_phi;
    q.sin_lambda = -0.28f;
    q.cos_lambda = 0.96f;
    q.year = 2027;
    q.day = 100;
    return q;
}

/* A question with lists of 104, the new entries zero. */
static struct field longer(void) {
    struct field q = question();
    for (int i = 0; i < 4; i++) q.lengths[i] = N_13;
    return q;
}

/* The same with new entries, all of them exact. */
static struct field thirteen(void) {
    struct field q = longer();
    for (int k = 0; k < N_13 - N; k++) {
        q.lists[0][N + k] = 0.25f * (float)(k - 6);
        q.lists[1][N + k] = 0.125f * (float)(7 - k);
        q.lists[2][N + k] = 0.03125f * (float)(k - 3);
        q.lists[3][N + k] = -0.015625f * (float)(k + 1);
    }
    return q;
}

/* ---- the calls */

static uint32_t ask_field(struct field *q) {
    const struct njerumoy_set set = set_of(q);
    return njerumoy_field_with(&set, place_of(q), q->year, q->day, q->xyz, q->errors, q->entry,
                               q->years);
}

/* At 33.5 south, 151.25 east: the question's pairs are not asked. */
static uint32_t ask_in_degrees(struct field *q) {
    const struct njerumoy_set set = set_of(q);
    return njerumoy_field_in_degrees_with(&set, q->height, -33.5f, 151.25f, q->year, q->day, q->xyz,
                                          q->errors, q->entry, q->years);
}

static uint32_t ask_listed(struct field *q) {
    const struct njerumoy_error_record of_2025 = {2025, 1, 2, 3, 4, 5, 6, 7, 8};
    const struct njerumoy_set set = set_of(q);
    return njerumoy_field_listed_with(&set, place_of(q), q->year, q->day, &of_2025, 1, q->xyz,
                                      q->errors, q->entry, q->years);
}

static uint32_t ask_allowance(struct field *q) {
    const struct njerumoy_set set = set_of(q);
    return njerumoy_allowance_with(&set, place_of(q), q->year, q->day, q->allowances, q->entry,
                                   q->years);
}

static uint32_t ask_rates(struct field *q) {
    const struct njerumoy_set set = set_of(q);
    return njerumoy_rates_with(&set, place_of(q), q->year, q->day, q->rates, q->entry, q->years);
}

/* The pair of the latitude is the colatitude's here. */
static uint32_t ask_sum(struct field *q) {
    const struct njerumoy_set set = set_of(q);
    const struct njerumoy_place place = place_of(q);
    return njerumoy_sum_with(&set, place.latitude, place.longitude, 0.9375f, 2.5f, q->xyz, q->entry);
}

static uint32_t (*const CALLS[])(struct field *) = {
    ask_field, ask_in_degrees, ask_listed, ask_allowance, ask_rates, ask_sum,
};

/* By all calls, and nothing is written but what the refusal carries. */
static int refused(const struct field *q, uint32_t number) {
    int all = 1;
    for (size_t i = 0; i < COUNT(CALLS); i++) {
        struct field b = *q;
        all = all && CALLS[i](&b) == number && kept_all(&b, number);
    }
    return all;
}

static int refused_entry(const struct field *q, size_t list, size_t index) {
    int all = refused(q, NJERUMOY_COEFFICIENT);
    for (size_t i = 0; i < COUNT(CALLS); i++) {
        struct field b = *q;
        all = all && CALLS[i](&b) == NJERUMOY_COEFFICIENT && b.entry[0] == list && b.entry[1] == index;
    }
    return all;
}

static int answered(const struct field *q) {
    int all = 1;
    for (size_t i = 0; i < COUNT(CALLS); i++) {
        struct field b = *q;
        all = all && CALLS[i](&b) == NJERUMOY_ANSWER && kept_entry(&b) && kept_years(&b);
    }
    return all;
}

/* ---- answers */

static int has_bits(const float *told, const uint32_t *bits, size_t count) {
    return memcmp(told, bits, count * sizeof *bits) == 0;
}

/* What the Rust oracle gives for the same questions, away from a pole and near or at one. */
static void test_oracle(void) {
    static const uint32_t sum[3] = {0xc67339e4, 0xc4b3862d, 0xc713b34b};
    static const uint32_t sum_near_pole[3] = {0xc48c1b68, 0xc2d583be, 0xc73984e9};
    static const uint32_t field[3] = {0x46d71901, 0xc4c033c6, 0x47002408};
    static const uint32_t field_at_pole[3] = {0x44de8cf9, 0x4296ed00, 0x475e4efe};
    static const uint32_t in_degrees[3] = {0x46bd483d, 0x45a9bba6, 0xc7473bd1};
    static const uint32_t rates[7] = {0x41ddf477, 0x4297ae93, 0xc0ed0df4, 0x3e24675a,
                                      0xbcf8ff7c, 0x41bbc737, 0x4116ed98};
    static const uint32_t rates_at_pole[7] = {0x4088b5c8, 0x428405c4, 0x41b9ba67, 0x40075749,
                                              0xbbd0d7fb, 0x40e20a3e, 0x41bb67de};
    struct field q = elsewhere(thirteen(), 0.6f, 0.8f);
    CHECK(ask_sum(&q) == NJERUMOY_ANSWER && has_bits(q.xyz, sum, 3));
    CHECK(ask_field(&q) == NJERUMOY_ANSWER && has_bits(q.xyz, field, 3));
    CHECK(q.errors[NJERUMOY_ERROR_SIGMA_V] == 5417.0f && q.errors[NJERUMOY_ERROR_Z] == 141.0f);
    CHECK(ask_listed(&q) == NJERUMOY_ANSWER && has_bits(q.xyz, field, 3) && q.errors[7] == 8.0f);
    CHECK(ask_in_degrees(&q) == NJERUMOY_ANSWER && has_bits(q.xyz, in_degrees, 3));
    CHECK(ask_rates(&q) == NJERUMOY_ANSWER && has_bits(q.rates, rates, 7));
    q = elsewhere(thirteen(), 0x1p-11f, 1.0f);
    CHECK(ask_sum(&q) == NJERUMOY_ANSWER && has_bits(q.xyz, sum_near_pole, 3));
    q = elsewhere(thirteen(), 1.0f, 0.0f);
    CHECK(ask_field(&q) == NJERUMOY_ANSWER && has_bits(q.xyz, field_at_pole, 3));
    CHECK(ask_rates(&q) == NJERUMOY_ANSWER && has_bits(q.rates, rates_at_pole, 7));
}

/* One coefficient of degree 13, on the equator at longitude 0 or at a pole: Schmidt's functions are the
 * root of 1300075 / 2^22 there for order 13, and 1 for order 0. */
static void test_by_hand(void) {
    const double power = pow(0.9375, 15.0), factor = sqrt(1300075.0 / 4194304.0);
    struct field q = longer();
    memset(q.lists, 0, sizeof q.lists);
    q.sin_phi = 1.0f;
    q.cos_phi = 0.0f;
    q.lists[0][N_13 - 1] = 1000.0f;
    CHECK(ask_sum(&q) == NJERUMOY_ANSWER && q.xyz[0] == 0.0f && q.xyz[1] == 0.0f);
    CHECK(near(q.xyz[2], 14000.0 * factor * power, 0.01));
    q.lists[0][N_13 - 1] = 0.0f;
    q.lists[3][N_13 - 1] = 1000.0f;
    CHECK(ask_sum(&q) == NJERUMOY_ANSWER && q.xyz[0] == 0.0f && q.xyz[2] == 0.0f);
    CHECK(near(q.xyz[1], -2.5 * 13000.0 * factor * power, 0.03));
    q.lists[3][N_13 - 1] = 0.0f;
    q.lists[2][N] = 1000.0f;
    q.sin_phi = 0.0f;
    q.cos_phi = 1.0f;
    CHECK(ask_sum(&q) == NJERUMOY_ANSWER && q.xyz[0] == 0.0f && q.xyz[1] == 0.0f);
    CHECK(near(q.xyz[2], 2.5 * 14000.0 * power, 0.03));
}

/* With zeros for the new entries all is as in degree 12, but for the sign of a zero. Of an allowance
 * only the bound is the same, which is shown to a hundredth. */
static void test_zeros(void) {
    const float sines[] = {-1.0f, -0.8f, -0.6f, 0.0f, 0.28f, 0.6f, 0.96f, 1.0f};
    const float cosines[] = {0.0f, 0.6f, 0.8f, 1.0f, 0.96f, 0.8f, 0.28f, 0.0f};
    for (size_t i = 0; i < COUNT(sines); i++) {
        struct field a = elsewhere(question(), sines[i], cosines[i]);
        struct field b = elsewhere(longer(), sines[i], cosines[i]);
        CHECK(ask_field(&a) == NJERUMOY_ANSWER && ask_field(&b) == NJERUMOY_ANSWER);
        CHECK(ask_rates(&a) == NJERUMOY_ANSWER && ask_rates(&b) == NJERUMOY_ANSWER);
        CHECK(ask_allowance(&a) == NJERUMOY_ANSWER && ask_allowance(&b) == NJERUMOY_ANSWER);
        for (int j = 0; j < 3; j++) {
            CHECK(a.xyz[j] == b.xyz[j]);
            CHECK(near(a.allowances[j], b.allowances[j], 0.0101 * (double)b.allowances[j]));
        }
        for (int j = 0; j < 7; j++) CHECK(a.rates[j] == b.rates[j]);
        CHECK(ask_sum(&a) == NJERUMOY_ANSWER && ask_sum(&b) == NJERUMOY_ANSWER);
        for (int j = 0; j < 3; j++) CHECK(a.xyz[j] == b.xyz[j]);
    }
}

/* New entries make the sums larger, and with them the bound. */
static void test_allowance(void) {
    struct field a = elsewhere(longer(), 0.6f, 0.8f), b = a;
    for (int i = N; i < N_13; i++) b.lists[0][i] = i % 2 == 0 ? 1000.0f : -1000.0f;
    CHECK(ask_allowance(&a) == NJERUMOY_ANSWER && ask_allowance(&b) == NJERUMOY_ANSWER);
    for (int i = 0; i < 3; i++) {
        CHECK(a.allowances[i] > 0.0f && isfinite(b.allowances[i]));
        CHECK(b.allowances[i] > 1.1f * a.allowances[i]);
    }
}

/* ---- refusals */

/* Every mix of both lengths, with good entries and with spoilt ones. */
static void test_mixes(void) {
    for (unsigned mix = 1; mix < 15; mix++) {
        struct field q = thirteen();
        for (int i = 0; i < 4; i++) q.lengths[i] = mix >> i & 1 ? N_13 : N;
        CHECK(refused(&q, NJERUMOY_DEGREE));
        for (int i = 0; i < 4; i++) q.lists[i][0] = q.lists[i][N_13 - 1] = NAN;
        CHECK(refused(&q, NJERUMOY_DEGREE));
        q.lengths[0] = 91;
        CHECK(refused(&q, NJERUMOY_LENGTH));
    }
}

/* Every length of one list that its room allows, beside lists of 90, of 104 and of both. */
static void test_lengths(void) {
    for (unsigned mix = 0; mix < 16; mix++) {
        for (size_t length = 0; length < N_13; length++) {
            for (int list = 0; list < 4 && length != N; list++) {
                struct field q = thirteen();
                for (int i = 0; i < 4; i++) q.lengths[i] = mix >> i & 1 ? N_13 : N;
                q.lengths[list] = length;
                CHECK(refused(&q, NJERUMOY_LENGTH));
            }
        }
    }
    struct field q = thirteen();
    CHECK(answered(&q));
    for (int i = 0; i < 4; i++) q.lengths[i] = N;
    CHECK(answered(&q));
}

/* Every entry of degree 13, as test.c has those of degree 12. In a set of 90 they are not looked at. */
static void test_entries(void) {
    static const float caps[] = {65536.0f, 65536.0f, 4096.0f, 4096.0f};
    for (size_t i = 0; i < 4; i++) {
        const float above = nextafterf(caps[i], INFINITY);
        const float over[] = {NAN, -NAN, INFINITY, -INFINITY, above, -above};
        for (size_t j = N; j < N_13; j++) {
            struct field q = thirteen(), shorter = question();
            q.lists[i][j] = caps[i];
            CHECK(answered(&q));
            q.lists[i][j] = -caps[i];
            CHECK(answered(&q));
            shorter.lists[i][j] = NAN;
            CHECK(answered(&shorter));
            for (size_t k = 0; k < COUNT(over); k++) {
                q.lists[i][j] = over[k];
                CHECK(refused_entry(&q, i, j));
            }
        }
    }
}

/* Field's order with a set of degree 13, from the last refusal to the first. */
static void test_order(void) {
    struct field behind = thirteen();
    for (size_t k = COUNT(FIELDS_OWN); k-- > 0;) {
        const uint32_t number = FIELDS_OWN[k];
        struct field q = thirteen();
        if (number == NJERUMOY_DEGREE) {
            q.lengths[3] = behind.lengths[3] = N;
        } else {
            refuse_by(&q, number);
            refuse_by(&behind, number);
        }
        struct field b = behind;
        CHECK(ask_field(&q) == number && kept_all(&q, number));
        CHECK(ask_field(&b) == number && kept_all(&b, number));
    }
}

int main(void) {
    test_oracle();
    test_by_hand();
    test_zeros();
    test_allowance();
    test_mixes();
    test_lengths();
    test_entries();
    test_order();
    return outcome();
}
