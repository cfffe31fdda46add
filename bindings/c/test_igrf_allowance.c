/* Tests of the allowance in the IGRF profile through the C headers: by hand, beside the majorant in double
 * precision and beside njerumoy_allowance, and what profile.h asks of every entry. tools/test-library
 * runs it. */
#include "profile.h"

static uint32_t ask(struct asked *q) {
    struct asked b = *q;
    const struct asked before = *q;
    const struct njerumoy_set first = set_of(&b.f), second = second_of(&b);
    const uint32_t with =
        njerumoy_igrf_allowance_with(&first, &second, place_of(&b.f), b.f.year, b.f.day,
                                     b.f.allowances, b.f.entry, b.f.years);
    const uint32_t told = njerumoy_igrf_allowance(
        q->f.height, q->f.sin_phi, q->f.cos_phi, q->f.sin_lambda, q->f.cos_lambda, q->f.year,
        q->f.day, q->f.epoch, q->f.lists[0], q->f.lengths[0], q->f.lists[1], q->f.lengths[1],
        q->f.lists[2], q->f.lengths[2], q->f.lists[3], q->f.lengths[3], q->second_epoch,
        q->second[0], q->second_lengths[0], q->second[1], q->second_lengths[1], q->f.allowances,
        q->f.entry, q->f.years);
    CHECK(told == with && same(&q->f, &b.f) && kept_sets(q, &before));
    return told;
}

static int answered(struct asked *q) {
    struct asked b = *q;
    const int has = ask(q) == NJERUMOY_ANSWER;
    memcpy(b.f.allowances, q->f.allowances, sizeof b.f.allowances);
    return has && same(&q->f, &b.f);
}

/* At least the proved bound for the majorant, and at most 1.01 times as much. */
static int covers(float allowance, double majorant) {
    const double bound = majorant / 131072.0 + 0x1p-20, shown = (double)allowance;
    return bound <= shown && shown <= 1.01 * bound;
}

/* All round and at the poles, in either degree, on a day of one of four years. */
enum { QUESTIONS = 61 };

static struct asked round_the_earth(int i, const int32_t years[4]) {
    struct asked q = on(years[i % 4], 1 + 5 * i);
    if (i / 4 % 2 != 0) q = longer(q);
    CHECK(njerumoy_sine_and_cosine(3.0f * (float)i - 90.0f, &q.f.sin_phi, &q.f.cos_phi) == 0);
    CHECK(njerumoy_sine_and_cosine(5.5f * (float)i - 165.0f, &q.f.sin_lambda, &q.f.cos_lambda) == 0);
    return q;
}

/* ---- the majorant in double precision
 *
 * It is worked out from the definition of M in njerumoy_igrf.h, with the colatitude, the offset and all
 * factors in double precision, where the library's are f32. That makes a few parts in a million; what is
 * shown has 2^-8 to spare. */

enum { DEGREES = 14 };

/* By size: c and s of the colatitude, and the powers of the radius ratio; by degree and order Schmidt's
 * factor, P, its derivative, and from order 1 on P over s, which there is also at a pole. */
struct sizes {
    double c, s, power[DEGREES];
    double schmidt[DEGREES][DEGREES], over_s[DEGREES][DEGREES];
    double p[DEGREES][DEGREES], dp[DEGREES][DEGREES];
};

static void place_sizes(const struct field *q, struct sizes *a) {
    const double f = 1.0 / 298.257223563, e2 = f * (2.0 - f), sin_phi = (double)q->sin_phi;
    const double curve = 6378137.0 / sqrt(1.0 - e2 * sin_phi * sin_phi), height = (double)q->height;
    const double across = (curve + height) * (double)q->cos_phi;
    const double along = (curve * (1.0 - e2) + height) * sin_phi;
    const double radius = hypot(across, along);
    a->c = fabs(along / radius);
    a->s = fabs(across / radius);
    for (int n = 0; n < DEGREES; n++) a->power[n] = pow(6371200.0 / radius, n + 2.0);
}

static double schmidt(const struct sizes *a, int n, int m) {
    if (m == 0) return a->schmidt[n - 1][0] * (2.0 * n - 1.0) / n;
    return a->schmidt[n][m - 1] * sqrt((n - m + 1.0) * (m == 1 ? 2.0 : 1.0) / (n + m));
}

/* What stands above the order of a degree is zero, so that one rule does for all orders but the last. */
static void legendre_sizes(struct sizes *a) {
    a->schmidt[0][0] = a->p[0][0] = 1.0;
    for (int n = 1; n < DEGREES; n++) {
        const int low = n < 2 ? 0 : n - 2;
        for (int m = 0; m < n; m++) {
            const double below = (n - 1.0) * (n - 1.0) - (double)(m * m);
            const double k = below / fabs((2.0 * n - 1.0) * (2.0 * n - 3.0));
            a->schmidt[n][m] = schmidt(a, n, m);
            a->over_s[n][m] = a->c * a->over_s[n - 1][m] + k * a->over_s[low][m];
            a->p[n][m] = a->c * a->p[n - 1][m] + k * a->p[low][m];
            a->dp[n][m] = a->c * a->dp[n - 1][m] + a->s * a->p[n - 1][m] + k * a->dp[low][m];
        }
        a->schmidt[n][n] = schmidt(a, n, n);
        a->over_s[n][n] = a->p[n - 1][n - 1];
        a->p[n][n] = a->s * a->p[n - 1][n - 1];
        a->dp[n][n] = a->s * a->dp[n - 1][n - 1] + a->c * a->p[n - 1][n - 1];
    }
}

/* g or h at the day: before 2025 the first set, the second and the offset by size. */
static double coefficient(const struct asked *q, int list, int index) {
    const double first = fabs((double)q->f.lists[list][index]);
    const double second = fabs((double)q->second[list][index]);
    const double rate = fabs((double)q->f.lists[2 + list][index]);
    const double days = q->f.year % 4 == 0 ? 366.0 : 365.0;
    const double years = q->f.year % 5 + (q->f.day - 1) / days;
    return first + years * (q->f.year < 2025 ? (second + first) / 5.0 : rate);
}

/* Adds the terms of one order, whose sine and cosine are by size, to those of X', Y and Z'. */
static void add_order(const struct asked *q, const struct sizes *a, int m, double sine, double cosine,
                      double of[3]) {
    const int top = q->f.lengths[0] == N ? 12 : 13;
    for (int n = m == 0 ? 1 : m; n <= top; n++) {
        const int index = n * (n + 1) / 2 + m - 1;
        const double g = coefficient(q, 0, index), h = coefficient(q, 1, index);
        const double factor = a->power[n] * a->schmidt[n][m];
        of[0] += factor * (g * cosine + h * sine) * a->dp[n][m];
        of[1] += factor * m * (g * sine + h * cosine) * a->over_s[n][m];
        of[2] += factor * (n + 1) * (g * cosine + h * sine) * a->p[n][m];
    }
}

static void majorants(const struct asked *q, double of[3]) {
    const double sin_lambda = fabs((double)q->f.sin_lambda), cos_lambda = fabs((double)q->f.cos_lambda);
    const double sin_phi = fabs((double)q->f.sin_phi), cos_phi = fabs((double)q->f.cos_phi);
    struct sizes a;
    double sine = 0.0, cosine = 1.0, prime[3] = {0.0, 0.0, 0.0};
    memset(&a, 0, sizeof a);
    place_sizes(&q->f, &a);
    legendre_sizes(&a);
    for (int m = 0; m < (a.s < 1e-3 ? 2 : DEGREES); m++) {
        add_order(q, &a, m, sine, cosine, prime);
        const double next = sine * cos_lambda + cosine * sin_lambda;
        cosine = cosine * cos_lambda + sine * sin_lambda;
        sine = next;
    }
    const double sin_turn = a.c * cos_phi + a.s * sin_phi, cos_turn = a.s * cos_phi + a.c * sin_phi;
    of[0] = prime[0] * cos_turn + prime[2] * sin_turn;
    of[1] = prime[1];
    of[2] = prime[0] * sin_turn + prime[2] * cos_turn;
}

/* Near a pole orders 2 and above are left out, on either side of 89.943 degrees. */
static void test_majorants(void) {
    const int32_t early[] = {2000, 2009, 2018, 2024}, late[] = {2025, 2026, 2028, 2029};
    const float degrees[] = {90.0f, 89.99f, 89.95f, 89.94f, -89.94f, -89.95f, -89.99f, -90.0f};
    double of[3];
    for (int i = 0; i < 4 * QUESTIONS; i++) {
        struct asked q = round_the_earth(i / 4, i % 4 == 3 ? late : early);
        if (i % 4 == 1) {
            const float latitude = degrees[(size_t)i / 4 % COUNT(degrees)];
            CHECK(njerumoy_sine_and_cosine(latitude, &q.f.sin_phi, &q.f.cos_phi) == 0);
        }
        if (i % 4 == 2) q.f.height = 850000.0f;
        majorants(&q, of);
        CHECK(answered(&q));
        for (int k = 0; k < 3; k++) CHECK(covers(q.f.allowances[k], of[k]));
    }
}

/* ---- by hand, and beside njerumoy_allowance */

static struct asked at_the_equator(int32_t year) {
    struct asked q = on(year, 1);
    memset(q.f.lists, 0, sizeof q.f.lists);
    memset(q.second, 0, sizeof q.second);
    q.f.sin_phi = q.f.sin_lambda = 0.0f;
    q.f.cos_phi = q.f.cos_lambda = 1.0f;
    return q;
}

/* Without sets all is 2^-20. With one coefficient of degree 1 the majorant of X is its size times k, the
 * cube of the radius ratio. It goes from 1000 nT to 2000 in five years, of either sign: by size that is
 * 600 nT a year. From 2025 on it goes by 30 nT a year. */
static void test_by_hand(void) {
    const double k = pow(6371200.0 / (6378137.0 + 1000.0), 3.0);
    const struct {
        int32_t year;
        float first, second, rate;
        double size;
    } rows[] = {
        {2003, 0, 0, 0, 0},           {2026, 0, 0, 0, 0},           {2015, 1000, 2000, 30, 1000},
        {2016, 1000, 2000, 30, 1600}, {2019, 1000, -2000, 0, 3400}, {2004, -1000, 2000, 0, 3400},
        {2004, 2000, -1000, 0, 4400}, {2027, 1000, 2000, 30, 1060}, {2027, 1000, 2000, -30, 1060},
    };
    for (size_t i = 0; i < COUNT(rows); i++) {
        struct asked q = at_the_equator(rows[i].year);
        q.f.lists[0][0] = rows[i].first;
        q.f.lists[2][0] = rows[i].rate;
        q.second[0][0] = rows[i].second;
        CHECK(answered(&q) && covers(q.f.allowances[0], rows[i].size * k));
        CHECK(covers(q.f.allowances[1], 0.0) && covers(q.f.allowances[2], 0.0));
    }
}

/* From 2025 on it is what njerumoy_allowance says of the first set, to the bit. */
static void test_beside_allowance(void) {
    const int32_t years[] = {2025, 2026, 2028, 2029};
    for (int i = 0; i < QUESTIONS; i++) {
        struct asked q = round_the_earth(i, years), b = q;
        const struct njerumoy_set set = set_of(&b.f);
        CHECK(answered(&q) &&
              njerumoy_allowance_with(&set, place_of(&b.f), b.f.year, b.f.day, b.f.allowances,
                                      b.f.entry, b.f.years) == NJERUMOY_ANSWER);
        CHECK(alike(&q.f, &b.f));
    }
}

int main(void) {
    test_majorants();
    test_by_hand();
    test_beside_allowance();
    test_profile();
    return outcome();
}
