/* Tests of the yearly rates through the C headers: by hand, beside another program's numbers and
 * beside Field, where there are none, and Field's refusals before that; and that a place keeps what it
 * held where the call has no result for it. Each question is asked in both forms, with loose lists and
 * with the set in one piece, and all that is told must be the same, bit for bit. tools/test-library
 * runs it. */
#include "question.h"

enum { RATES = 7 };

/* In both forms. The lists hold afterwards what they held. */
static uint32_t ask(struct field *q) {
    struct field b = *q;
    const struct field before = *q;
    const struct njerumoy_set set = set_of(&b);
    const uint32_t with =
        njerumoy_rates_with(&set, place_of(&b), b.year, b.day, b.rates, b.entry, b.years);
    const uint32_t told = njerumoy_rates(
        q->height, q->sin_phi, q->cos_phi, q->sin_lambda, q->cos_lambda, q->year, q->day, q->epoch,
        q->lists[0], q->lengths[0], q->lists[1], q->lengths[1], q->lists[2], q->lengths[2],
        q->lists[3], q->lengths[3], q->rates, q->entry, q->years);
    CHECK(told == with && same(q, &b));
    CHECK(memcmp(q->lists, before.lists, sizeof before.lists) == 0);
    return told;
}

static uint32_t ask_field(struct field *q) {
    const struct njerumoy_set set = set_of(q);
    return njerumoy_field_with(&set, place_of(q), q->year, q->day, q->xyz, q->errors, q->entry,
                               q->years);
}

/* Only the rates are written. */
static int answered(struct field *q) {
    struct field b = *q;
    const int has = ask(q) == NJERUMOY_ANSWER;
    memcpy(b.rates, q->rates, sizeof b.rates);
    return has && same(q, &b);
}

static struct field without_set(void) {
    struct field q = question();
    memset(q.lists, 0, sizeof q.lists);
    return q;
}

/* At a latitude and a longitude in degrees. */
static struct field at(struct field q, float latitude, float longitude) {
    CHECK(njerumoy_sine_and_cosine(latitude, &q.sin_phi, &q.cos_phi) == NJERUMOY_ANSWER);
    CHECK(njerumoy_sine_and_cosine(longitude, &q.sin_lambda, &q.cos_lambda) == NJERUMOY_ANSWER);
    return q;
}

static int is_angle(int rate) {
    return rate == NJERUMOY_RATE_DECLINATION || rate == NJERUMOY_RATE_INCLINATION;
}

/* ---- answers */

/* Degree 1 alone, at the equator and longitude 0. There each coefficient is one component: with k the
 * cube of the radius ratio X is -g_1^0 k, Y is -h_1^1 k and Z is -2 g_1^1 k. The field is
 * (30000, 40000, 120000) k, so that H is 50000 k and F is 130000 k; its rates are (50, 100, 52) k. */
static struct field by_hand(void) {
    struct field q = at(without_set(), 0.0f, 0.0f);
    q.lists[0][0] = -30000.0f;
    q.lists[0][1] = -60000.0f;
    q.lists[1][1] = -40000.0f;
    q.lists[2][0] = -50.0f;
    q.lists[2][1] = -26.0f;
    q.lists[3][1] = -100.0f;
    return q;
}

static void test_by_hand(void) {
    const float heights[] = {-1000.0f, 0.0f, 850000.0f};
    for (size_t i = 0; i < COUNT(heights); i++) {
        const double k = pow(6371200.0 / (6378137.0 + (double)heights[i]), 3.0);
        const double exact[RATES] = {
            [NJERUMOY_RATE_X] = 50.0 * k,
            [NJERUMOY_RATE_Y] = 100.0 * k,
            [NJERUMOY_RATE_Z] = 52.0 * k,
            [NJERUMOY_RATE_DECLINATION] = (100.0 * 30.0 - 40.0 * 50.0) / 2.5e6 / RADIAN,
            [NJERUMOY_RATE_INCLINATION] = (52.0 * 50.0 - 120.0 * 110.0) / 1.69e7 / RADIAN,
            [NJERUMOY_RATE_H] = 110.0 * k,
            [NJERUMOY_RATE_F] = 11740.0 / 130.0 * k,
        };
        struct field q = by_hand();
        q.height = heights[i];
        CHECK(answered(&q));
        for (int j = 0; j < RATES; j++) CHECK(near(q.rates[j], exact[j], 1e-6 * fabs(exact[j])));
    }
}

/* What another program gives in double precision, on the first day of the epoch: nanotesla a year to
 * two digits after the point, degrees a year to four. */
static void test_rows(void) {
    static const struct {
        const struct njerumoy_set *set;
        float height, latitude, longitude;
        double exact[RATES];
    } rows[] = {
        {&NJERUMOY_WMM2020, 0, 80, 0, {-16.18, 58.97, 42.95, 0.5108, 0.0234, -17.49, 40.55}},
        {&NJERUMOY_WMM2020, 0, 0, 120, {24.17, -60.83, 49.19, -0.0881, 0.0750, 24.00, 10.05}},
        {&NJERUMOY_WMM2020, 0, -80, -120, {30.38, 1.85, 91.66, -0.0944, 0.0414, 12.44, -83.46}},
        {&NJERUMOY_WMM2020, 100000, 80, 0, {-15.10, 56.41, 39.18, 0.5116, 0.0231, -16.76, 36.91}},
        {&NJERUMOY_WMM2025, 0, 80, 0, {-8.31, 59.46, 31.14, 0.5237, 0.0110, -6.98, 30.10}},
        {&NJERUMOY_WMM2025, 0, 0, 120, {9.54, -23.11, 79.35, -0.0333, 0.1104, 9.61, -11.16}},
        {&NJERUMOY_WMM2025, 0, -80, -120, {33.27, -8.65, 95.55, -0.1158, 0.0349, 3.99, -89.64}},
        {&NJERUMOY_WMM2025, 850000, -34, 151, {-7.08, 4.37, 11.33, 0.0199, -0.0008, -6.02, -12.82}},
    };
    for (size_t i = 0; i < COUNT(rows); i++) {
        struct field q = at(question(), rows[i].latitude, rows[i].longitude);
        struct njerumoy_place place = place_of(&q);
        place.height = rows[i].height;
        CHECK(njerumoy_rates_with(rows[i].set, place, rows[i].set->epoch_year, 1, q.rates, q.entry,
                                  q.years) == NJERUMOY_ANSWER);
        for (int j = 0; j < RATES; j++) {
            CHECK(near(q.rates[j], rows[i].exact[j], is_angle(j) ? 0.00006 : 0.006));
        }
    }
}

/* Every rate of `b` is that of `a` by a factor, exactly. */
static int stands(const struct field *a, const struct field *b, float of_strengths, float of_angles) {
    int all = 1;
    for (int i = 0; i < RATES; i++) {
        all = all && a->rates[i] * (is_angle(i) ? of_angles : of_strengths) == b->rates[i];
    }
    return all;
}

/* On the first day of the epoch the field is that of g and h alone: a factor on the rates is one on
 * all seven, and half the field turns twice as fast. A power of two is exact. */
static void test_factors(void) {
    struct field q = at(question(), -33.9f, 151.2f), faster = q, weaker = q;
    for (int i = 0; i < N; i++) {
        faster.lists[2][i] *= -2.0f;
        faster.lists[3][i] *= -2.0f;
        weaker.lists[0][i] *= 0.5f;
        weaker.lists[1][i] *= 0.5f;
    }
    CHECK(answered(&q) && answered(&faster) && answered(&weaker));
    CHECK(stands(&q, &faster, -2.0f, -2.0f) && stands(&q, &weaker, 1.0f, 2.0f));
}

/* The rates of X, Y and Z are the field of a set whose coefficients are the rates, on the first day of
 * its epoch: to the bit, and whatever the day. */
static int as_of_rates(const struct field *q) {
    struct field b = *q;
    memcpy(b.lists[0], q->lists[2], sizeof b.lists[0]);
    memcpy(b.lists[1], q->lists[3], sizeof b.lists[1]);
    b.year = b.epoch;
    b.day = 1;
    return ask_field(&b) == NJERUMOY_ANSWER && memcmp(b.xyz, q->rates, sizeof b.xyz) == 0;
}

/* The other four, in double precision from the field of the day and the three. How far they may be is
 * by the size of their terms: every step rounds once. */
static int as_of_field(struct field q) {
    const int has = ask_field(&q) == NJERUMOY_ANSWER;
    const double x = q.xyz[0], y = q.xyz[1], z = q.xyz[2], h = hypot(x, y), f = hypot(h, z);
    const double xx = x * q.rates[NJERUMOY_RATE_X], yy = y * q.rates[NJERUMOY_RATE_Y];
    const double zz = z * q.rates[NJERUMOY_RATE_Z], hh = fabs(xx) + fabs(yy), part = 0x1p-20;
    const double yx = q.rates[NJERUMOY_RATE_Y] * x, xy = q.rates[NJERUMOY_RATE_X] * y;
    const double zh = q.rates[NJERUMOY_RATE_Z] * h, hz = (xx + yy) / h * z;
    const double in_h = 1.0 / (h * h) / RADIAN, in_f = 1.0 / (f * f) / RADIAN;
    return has && near(q.rates[NJERUMOY_RATE_H], (xx + yy) / h, part * hh / h) &&
           near(q.rates[NJERUMOY_RATE_F], (xx + yy + zz) / f, part * (hh + fabs(zz)) / f) &&
           near(q.rates[NJERUMOY_RATE_DECLINATION], (yx - xy) * in_h,
                part * (fabs(yx) + fabs(xy)) * in_h) &&
           near(q.rates[NJERUMOY_RATE_INCLINATION], (zh - hz) * in_f,
                part * (fabs(zh) + hh / h * fabs(z)) * in_f);
}

/* The poles, next to them, where orders are left out, and all round; on a day within the epoch. */
static void test_grid(void) {
    const float latitudes[] = {-90.0f, -89.95f, -89.94f, -75.5f, -60.0f, -33.9f, -7.25f, 0.0f,
                               20.0f,  45.0f,   52.2f,   66.6f,  80.0f,  89.94f, 89.95f, 90.0f};
    for (size_t i = 0; i < COUNT(latitudes); i++) {
        for (int j = -12; j <= 12; j++) {
            struct field q = at(question(), latitudes[i], 15.0f * (float)j);
            q.height = 1234.5f;
            q.year = 2028;
            q.day = 200;
            CHECK(answered(&q));
            CHECK(as_of_rates(&q) && as_of_field(q));
        }
    }
}

/* ---- what they change with */

/* X, Y and Z change by the same on all days of the epoch, to the bit; the other four do not, since the
 * field is another. */
static void test_days(void) {
    struct field first = question(), last = question();
    CHECK(answered(&first));
    for (int32_t year = 2025; year < 2030; year++) {
        for (int32_t day = 1; day <= (year == 2028 ? 366 : 365); day++) {
            last.year = year;
            last.day = day;
            CHECK(answered(&last));
            CHECK(memcmp(last.rates, first.rates, 3 * sizeof *first.rates) == 0);
        }
    }
    for (int i = NJERUMOY_RATE_DECLINATION; i < RATES; i++) CHECK(first.rates[i] != last.rates[i]);
}

/* The seven, as a tablet shows them. */
static void shown(struct field q, double v[RATES]) {
    float d = HELD, i = HELD, h = HELD, f = HELD;
    CHECK(ask_field(&q) == NJERUMOY_ANSWER);
    const float x = q.xyz[0], y = q.xyz[1], z = q.xyz[2];
    CHECK(njerumoy_field_declination(x, y, z, &d) == NJERUMOY_ANSWER);
    CHECK(njerumoy_inclination(x, y, z, &i) == NJERUMOY_ANSWER);
    CHECK(njerumoy_horizontal(x, y, z, &h) == NJERUMOY_ANSWER);
    CHECK(njerumoy_total(x, y, z, &f) == NJERUMOY_ANSWER);
    const float all[RATES] = {x, y, z, d, i, h, f};
    for (int k = 0; k < RATES; k++) v[k] = (double)all[k];
}

/* What is shown two years later less what is shown two years before, over four: where H is large the
 * angles change evenly enough. */
static void test_differences(void) {
    for (int i = -3; i <= 3; i++) {
        for (int j = -6; j < 6; j++) {
            struct field q = at(question(), 15.0f * (float)i, 30.0f * (float)j);
            struct field before = q, after = q;
            double a[RATES], b[RATES];
            q.year = 2027;
            after.year = 2029;
            shown(before, a);
            shown(after, b);
            CHECK(answered(&q));
            for (int k = 0; k < RATES; k++) {
                CHECK(near(q.rates[k], (b[k] - a[k]) / 4.0, is_angle(k) ? 0.0001 : 0.02));
            }
        }
    }
}

/* ---- where there are none */

/* H as it is shown. */
static float horizontal(struct field q) {
    float h = HELD;
    CHECK(ask_field(&q) == NJERUMOY_ANSWER);
    CHECK(njerumoy_horizontal(q.xyz[0], q.xyz[1], q.xyz[2], &h) == NJERUMOY_ANSWER);
    return h;
}

static int refused(struct field q, uint32_t number) {
    return ask(&q) == number && kept_all(&q, number);
}

/* Without a field, and at a pole by g_1^0 alone, which is down there. A little of g_1^1 or h_1^1 is an
 * H, and then all are told. */
static void test_no_horizontal(void) {
    CHECK(refused(without_set(), NJERUMOY_ZERO_DIVISOR));
    for (float pole = -1.0f; pole <= 1.0f; pole += 2.0f) {
        for (int list = 0; list < 2; list++) {
            struct field q = without_set();
            q.sin_phi = pole;
            q.cos_phi = 0.0f;
            q.lists[0][0] = -30000.0f;
            q.lists[2][0] = 12.0f;
            q.lists[3][1] = -20.0f;
            CHECK(horizontal(q) == 0.0f && refused(q, NJERUMOY_ZERO_DIVISOR));
            q.lists[list][1] = 1e-12f;
            CHECK(horizontal(q) > 0.0f && answered(&q));
            CHECK(as_of_rates(&q) && as_of_field(q));
        }
    }
}

/* One step of h_1^1 lies between them, at the equator and longitude 0 (docs/DIFFERENCES.md, entry 17). */
static void test_one_step(void) {
    struct field q = at(without_set(), 0.0f, 0.0f);
    q.lists[1][1] = 0x1.00d64cp-75f;
    CHECK(horizontal(q) == 0.0f && refused(q, NJERUMOY_ZERO_DIVISOR));
    q.lists[1][1] = 0x1.00d64ep-75f;
    CHECK(horizontal(q) > 0.0f && answered(&q));
}

/* A field of one small number, down to the least, with rates at their caps: refused exactly where H is
 * zero, and all of an answer is finite. */
static void test_small(void) {
    int refusals = 0, answers = 0;
    for (int power = -149; power <= 0; power++) {
        struct field q = at(without_set(), 0.0f, 0.0f);
        q.lists[0][0] = ldexpf(1.0f, power);
        for (int i = 0; i < N; i++) q.lists[2][i] = q.lists[3][i] = 4096.0f;
        if (horizontal(q) == 0.0f) {
            refusals++;
            CHECK(refused(q, NJERUMOY_ZERO_DIVISOR));
        } else {
            answers++;
            CHECK(answered(&q));
            for (int i = 0; i < RATES; i++) CHECK(isfinite(q.rates[i]));
        }
    }
    CHECK(refusals > 50 && answers > 50);
}

/* ---- refusals of Field */

/* Told as Field tells it. */
static int refused_alike(struct field q, uint32_t number) {
    struct field b = q;
    return ask(&q) == number && kept_all(&q, number) && ask_field(&b) == number && same(&q, &b);
}

/* Each by itself, and each before all those after it and before 21. */
static void test_refusals(void) {
    struct field behind = without_set();
    for (size_t k = COUNT(FIELDS_OWN); k-- > 0;) {
        const uint32_t number = FIELDS_OWN[k];
        struct field q = question();
        refuse_by(&q, number);
        refuse_by(&behind, number);
        CHECK(refused_alike(q, number) && refused_alike(behind, number));
    }
    struct field q = question();
    q.epoch = 2021;
    CHECK(refused_alike(q, NJERUMOY_EPOCH_YEAR));
    q = without_set();
    q.epoch = 2020;
    CHECK(ask(&q) == NJERUMOY_OTHER_EPOCH && q.years[0] == 2025 && q.years[1] == 2020);
}

static void test_lists(void) {
    for (size_t i = 0; i < 4; i++) {
        struct field q = question();
        q.lengths[i] = N - 1;
        CHECK(refused_alike(q, NJERUMOY_LENGTH));
        for (size_t j = 0; j < N; j++) {
            q = question();
            q.lists[i][j] = NAN;
            CHECK(refused_alike(q, NJERUMOY_COEFFICIENT));
            CHECK(ask(&q) == NJERUMOY_COEFFICIENT && q.entry[0] == i && q.entry[1] == j);
        }
    }
}

int main(void) {
    test_by_hand();
    test_rows();
    test_factors();
    test_grid();
    test_days();
    test_differences();
    test_no_horizontal();
    test_one_step();
    test_small();
    test_refusals();
    test_lists();
    return outcome();
}
