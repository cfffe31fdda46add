/* Tests of the library through its C headers: answers, refusals in their order, what they carry, and
 * that a place keeps what it held where the call has no result for it. Each question that takes a set
 * is asked in both forms, with loose lists and with the set in one piece, and all that is told must
 * be the same, bit for bit. tools/test-library runs it. test_angles.c has angles in degrees,
 * test_cof.c the coefficient files, test_rates.c the yearly rates, test_records.c the lent error
 * records, test_stored.c and test_stored_field.c the stored sets, and test_thirteen.c the lists of
 * degree 13. */
#include "question.h"

static uint32_t ask(struct field *q) {
    struct field b = *q;
    const struct njerumoy_set set = set_of(&b);
    const uint32_t with =
        njerumoy_field_with(&set, place_of(&b), b.year, b.day, b.xyz, b.errors, b.entry, b.years);
    const uint32_t told = njerumoy_field(
        q->height, q->sin_phi, q->cos_phi, q->sin_lambda, q->cos_lambda, q->year, q->day, q->epoch,
        q->lists[0], q->lengths[0], q->lists[1], q->lengths[1], q->lists[2], q->lengths[2],
        q->lists[3], q->lengths[3], q->xyz, q->errors, q->entry, q->years);
    CHECK(told == with && same(q, &b));
    return told;
}

static uint32_t ask_allowance(struct field *q) {
    struct field b = *q;
    const struct njerumoy_set set = set_of(&b);
    const uint32_t with =
        njerumoy_allowance_with(&set, place_of(&b), b.year, b.day, b.allowances, b.entry, b.years);
    const uint32_t told = njerumoy_allowance(
        q->height, q->sin_phi, q->cos_phi, q->sin_lambda, q->cos_lambda, q->year, q->day, q->epoch,
        q->lists[0], q->lengths[0], q->lists[1], q->lengths[1], q->lists[2], q->lengths[2],
        q->lists[3], q->lengths[3], q->allowances, q->entry, q->years);
    CHECK(told == with && same(q, &b));
    return told;
}

/* Nothing is written but what the refusal carries. Field and Allowance refuse alike. */
static int refused(struct field *q, uint32_t number) {
    struct field b = *q;
    int alike = ask_allowance(&b) == number && kept_all(&b, number);
    return ask(q) == number && kept_all(q, number) && alike &&
           memcmp(q->entry, b.entry, sizeof b.entry) == 0 &&
           memcmp(q->years, b.years, sizeof b.years) == 0;
}

static void test_field(void) {
    struct field q = question();
    CHECK(ask(&q) == 0);
    CHECK(near(q.xyz[0], 6521.6, 0.05) && near(q.xyz[1], 145.9, 0.05));
    CHECK(near(q.xyz[2], 54791.5, 0.05));
    CHECK(q.errors[NJERUMOY_ERROR_SIGMA_C] == 0.26f && q.errors[NJERUMOY_ERROR_SIGMA_V] == 5417.0f);
    CHECK(q.errors[NJERUMOY_ERROR_INCLINATION] == 0.20f && q.errors[NJERUMOY_ERROR_F] == 138.0f);
    CHECK(q.errors[NJERUMOY_ERROR_H] == 133.0f && q.errors[NJERUMOY_ERROR_X] == 137.0f);
    CHECK(q.errors[NJERUMOY_ERROR_Y] == 89.0f && q.errors[NJERUMOY_ERROR_Z] == 141.0f);
    CHECK(kept_entry(&q) && kept_years(&q));
}

static void test_allowance(void) {
    struct field q = question();
    CHECK(ask_allowance(&q) == 0);
    for (int i = 0; i < 3; i++) CHECK(q.allowances[i] > 0.0f && q.allowances[i] < 6.0f);
    CHECK(q.xyz[0] == HELD && q.errors[0] == HELD && kept_entry(&q) && kept_years(&q));
    /* no set at all: the bound is 2^-20, and at most 1.01 times that is shown */
    memset(q.lists, 0, sizeof q.lists);
    CHECK(ask(&q) == 0 && ask_allowance(&q) == 0);
    for (int i = 0; i < 3; i++) {
        CHECK(q.xyz[i] == 0.0f);
        CHECK(q.allowances[i] * 1048576.0 >= 1.0 && q.allowances[i] * 1048576.0 <= 1.01);
    }
}

/* From the last refusal to the first: each hides those after it. */
static void test_field_refusals(void) {
    struct field q = question();
    q.epoch = 2020;
    CHECK(refused(&q, 8) && q.years[0] == 2025 && q.years[1] == 2020);
    q = question();
    q.epoch = 2020;
    q.lists[3][89] = -4097.0f;
    CHECK(refused(&q, 7) && q.entry[0] == 3 && q.entry[1] == 89);
    q.lists[1][4] = INFINITY;
    CHECK(refused(&q, 7) && q.entry[0] == 1 && q.entry[1] == 4);
    q.lists[0][0] = NAN;
    CHECK(refused(&q, 7) && q.entry[0] == 0 && q.entry[1] == 0);
    q.entry[0] = q.entry[1] = HELD_SIZE;
    q.lengths[3] = N_13;
    CHECK(refused(&q, 23));
    q.lengths[2] = 89;
    CHECK(refused(&q, 6));
    q.lengths[2] = 0;
    CHECK(refused(&q, 6));
    q.epoch = 2021;
    CHECK(refused(&q, 5));
    q.year = 2030;
    CHECK(refused(&q, 5));
    q.day = 366;
    CHECK(refused(&q, 4));
    q.cos_lambda = 0.5f;
    CHECK(refused(&q, 3));
    q.cos_phi = -q.cos_phi;
    CHECK(refused(&q, 2));
    q.height = 850001.0f;
    CHECK(refused(&q, 1));
    q.height = NAN;
    CHECK(refused(&q, 1));
}

/* Sum, by the question's lists. Its pair of the latitude is the colatitude's here. */
static uint32_t ask_sum(struct field *q, float ratio, float offset) {
    struct field b = *q;
    const struct njerumoy_set set = set_of(&b);
    const struct njerumoy_place place = place_of(&b);
    const uint32_t with =
        njerumoy_sum_with(&set, place.latitude, place.longitude, ratio, offset, b.xyz, b.entry);
    const uint32_t told =
        njerumoy_sum(q->cos_phi, q->sin_phi, q->sin_lambda, q->cos_lambda, ratio, offset, q->lists[0],
                     q->lengths[0], q->lists[1], q->lengths[1], q->lists[2], q->lengths[2],
                     q->lists[3], q->lengths[3], q->xyz, q->entry);
    CHECK(told == with && same(q, &b));
    return told;
}

/* One coefficient, g or h, at a colatitude and longitude 0: the papers' worked examples. */
static uint32_t one(int list, int index, float value, float cos_theta, float sin_theta,
                    float xyz[3]) {
    struct field q = question();
    memset(q.lists, 0, sizeof q.lists);
    q.lists[list][index] = value;
    q.cos_phi = cos_theta;
    q.sin_phi = sin_theta;
    memcpy(q.xyz, xyz, sizeof q.xyz);
    const uint32_t told = ask_sum(&q, 1.0f, 0.0f);
    memcpy(xyz, q.xyz, sizeof q.xyz);
    return told;
}

static void test_sum(void) {
    float xyz[3] = {0.0f, 0.0f, 0.0f};
    CHECK(one(0, 0, -30000.0f, 0.0f, 1.0f, xyz) == 0);
    CHECK(xyz[0] == -30000.0f && xyz[1] == 0.0f && xyz[2] == 0.0f);
    CHECK(one(0, 0, -30000.0f, 1.0f, 0.0f, xyz) == 0);
    CHECK(xyz[0] == 0.0f && xyz[1] == 0.0f && xyz[2] == -60000.0f);
    CHECK(one(1, 1, 4500.0f, 0.0f, 1.0f, xyz) == 0);
    CHECK(xyz[0] == 0.0f && xyz[1] == -4500.0f && xyz[2] == 0.0f);
    xyz[0] = xyz[1] = xyz[2] = HELD;
    CHECK(one(0, 0, 65537.0f, 0.0f, 1.0f, xyz) == 7);
    CHECK(one(0, 0, 1.0f, 0.5f, 0.5f, xyz) == 9);
    CHECK(xyz[0] == HELD && xyz[1] == HELD && xyz[2] == HELD);
}

/* Numbers that are all different, so that no two can be handed on in each other's place. */
static void test_places_apart(void) {
    struct field q = question();
    q.height = 1234.5f;
    q.sin_lambda = 0.6f;
    q.cos_lambda = -0.8f;
    q.day = 200;
    CHECK(ask(&q) == 0 && ask_allowance(&q) == 0);
    CHECK(ask_sum(&q, 0.9375f, 2.5f) == 0);
    CHECK(ask_sum(&q, 2.5f, 0.9375f) == 10);
    CHECK(ask_sum(&q, 0.9375f, 5.5f) == 11);
    q.lists[2][7] = NAN;
    CHECK(ask_sum(&q, 0.9375f, 2.5f) == 7 && q.entry[0] == 2 && q.entry[1] == 7);
    q.lengths[1] = N_13;
    CHECK(ask_sum(&q, 0.9375f, 2.5f) == 23);
    q.lengths[0] = 91;
    CHECK(ask_sum(&q, 0.9375f, 2.5f) == 6);
    CHECK(ask_sum(&q, 0.9375f, 5.5f) == 11);
}

/* Each list by itself too short. */
static void test_lengths(void) {
    for (int i = 0; i < 4; i++) {
        struct field q = question();
        q.lengths[i] = N - 1;
        CHECK(refused(&q, 6));
        CHECK(ask_sum(&q, 1.0f, 0.0f) == 6);
    }
}

/* Every entry of every list: at its cap it is taken; a step above it, or where it is no number, it is
 * refused by its place. The compiled check runs by lanes, so a place may be its own code. */
static void test_entries(void) {
    static const float caps[] = {65536.0f, 65536.0f, 4096.0f, 4096.0f};
    for (size_t i = 0; i < 4; i++) {
        const float above = nextafterf(caps[i], INFINITY);
        const float over[] = {NAN, -NAN, INFINITY, -INFINITY, above, -above};
        for (size_t j = 0; j < N; j++) {
            struct field q = question();
            q.lists[i][j] = caps[i];
            CHECK(ask_sum(&q, 1.0f, 0.0f) == 0);
            q.lists[i][j] = -caps[i];
            CHECK(ask_sum(&q, 1.0f, 0.0f) == 0);
            for (size_t k = 0; k < sizeof over / sizeof *over; k++) {
                q.lists[i][j] = over[k];
                q.entry[0] = q.entry[1] = HELD_SIZE;
                CHECK(ask_sum(&q, 1.0f, 0.0f) == 7 && q.entry[0] == i && q.entry[1] == j);
            }
        }
    }
}

/* The published sets bring their own year: each answers for the days of its epoch, and is refused on
 * the other's. */
static void test_published(void) {
    const struct field q = question();
    const struct njerumoy_set *const sets[2] = {&NJERUMOY_WMM2020, &NJERUMOY_WMM2025};
    const int32_t days[2][2] = {{2024, 366}, {2025, 1}};
    for (int set = 0; set < 2; set++) {
        for (int day = 0; day < 2; day++) {
            struct field b = q;
            const uint32_t told =
                njerumoy_field_with(sets[set], place_of(&q), days[day][0], days[day][1], b.xyz,
                                    b.errors, b.entry, b.years);
            CHECK(told == (set == day ? 0u : 8u));
            CHECK(set == day || (b.years[0] == 2020 + 5 * day && b.years[1] == 2020 + 5 * set));
        }
    }
    CHECK(NJERUMOY_WMM2020.g_length == N && NJERUMOY_WMM2020.h_length == N);
    CHECK(NJERUMOY_WMM2025.g_dot_length == N && NJERUMOY_WMM2025.h_dot_length == N);
}

/* By the figures of the set's own year, as of that year named beside the components. */
static void test_uncertainty(void) {
    const struct njerumoy_set *const sets[2] = {&NJERUMOY_WMM2020, &NJERUMOY_WMM2025};
    const float fields[3][3] = {{6521.6f, 145.9f, 54791.5f}, {0.0f, 0.0f, 1.0f}, {NAN, 1.0f, 1.0f}};
    float last = HELD;
    for (int set = 0; set < 2; set++) {
        for (int i = 0; i < 3; i++) {
            const float *xyz = fields[i];
            float u = HELD, v = HELD;
            CHECK(njerumoy_declination_uncertainty_with(sets[set], xyz, &u) ==
                  njerumoy_declination_uncertainty(xyz[0], xyz[1], xyz[2], 2020 + 5 * set, &v));
            CHECK(memcmp(&u, &v, sizeof u) == 0);
            if (i == 0) {
                CHECK(u != last);
                last = u;
            }
        }
    }
}

static uint32_t epoch(int32_t year, int32_t day, int32_t *epoch_year, float *offset) {
    *epoch_year = HELD_YEAR;
    *offset = HELD;
    return njerumoy_epoch(year, day, epoch_year, offset);
}

static void test_epoch(void) {
    int32_t year;
    float offset;
    CHECK(epoch(2024, 184, &year, &offset) == 0 && year == 2020 && offset == 4.5f);
    CHECK(epoch(2020, 1, &year, &offset) == 0 && year == 2020 && offset == 0.0f);
    CHECK(epoch(2029, 365, &year, &offset) == 0 && year == 2025);
    CHECK(epoch(2024, 366, &year, &offset) == 0);
    CHECK(epoch(2019, 365, &year, &offset) == 5 && year == HELD_YEAR && offset == HELD);
    CHECK(epoch(2030, 1, &year, &offset) == 5);
    CHECK(epoch(2025, 366, &year, &offset) == 4);
    CHECK(epoch(INT32_MIN, 0, &year, &offset) == 4);
    CHECK(epoch(INT32_MAX, 1, &year, &offset) == 5);
}

static void test_strengths(void) {
    float h = HELD, f = HELD, u = HELD;
    uint32_t zone = 9;
    CHECK(njerumoy_horizontal(1200.0f, 1600.0f, 0.0f, &h) == 0 && h == 2000.0f);
    CHECK(njerumoy_total(1200.0f, 1600.0f, 1500.0f, &f) == 0 && f == 2500.0f);
    CHECK(njerumoy_zone(1200.0f, 1600.0f, 0.0f, &zone) == 0 && zone == NJERUMOY_CAUTION_ZONE);
    CHECK(njerumoy_zone(3600.0f, 4800.0f, 0.0f, &zone) == 0 && zone == NJERUMOY_NO_ZONE);
    CHECK(njerumoy_zone(0.0f, 1999.0f, 0.0f, &zone) == 0 && zone == NJERUMOY_BLACKOUT_ZONE);
    CHECK(njerumoy_declination_uncertainty(0.0f, 0.0f, 50000.0f, 2025, &u) == 0 && u == 180.0f);
    h = f = u = HELD;
    zone = 9;
    CHECK(njerumoy_horizontal(1.0f, 1.0f, NAN, &h) == 12 && h == HELD);
    CHECK(njerumoy_total(1.0f, INFINITY, 1.0f, &f) == 12 && f == HELD);
    CHECK(njerumoy_zone(NAN, 1.0f, 1.0f, &zone) == 12 && zone == 9);
    CHECK(njerumoy_declination_uncertainty(NAN, 1.0f, 1.0f, 2024, &u) == 5 && u == HELD);
    CHECK(njerumoy_declination_uncertainty(NAN, 1.0f, 1.0f, 2020, &u) == 12 && u == HELD);
}

/* Due south has one name; what is next to it keeps its sign. */
static void test_due_south(void) {
    const float next = 179.99998f; /* the f32 before 180 */
    uint32_t given = 9;
    float v = HELD;
    CHECK(njerumoy_grid_variation(55.0f, 180.0f, 0.0f, &given, &v) == 0);
    CHECK(given == 1 && v == 180.0f);
    CHECK(njerumoy_grid_variation(-90.0f, -90.0f, -90.0f, &given, &v) == 0);
    CHECK(given == 1 && v == 180.0f);
    CHECK(njerumoy_grid_variation(55.0f, -180.0f, 0.0f, &given, &v) == 0);
    CHECK(given == 1 && v == 180.0f);
    CHECK(njerumoy_grid_variation(55.0f, next, 0.0f, &given, &v) == 0);
    CHECK(given == 1 && v == -next);
    CHECK(njerumoy_grid_variation(55.0f, 0.0f, -0.0f, &given, &v) == 0);
    CHECK(given == 1 && v == 0.0f && signbit(v));
    CHECK(njerumoy_grid_variation(55.0f, 180.0f, -180.0f, &given, &v) == 0);
    CHECK(given == 1 && v == 0.0f && !signbit(v));
}

static void test_grid(void) {
    uint32_t given = 9;
    float v = HELD;
    CHECK(njerumoy_grid_variation(60.0f, -100.0f, 90.0f, &given, &v) == 0);
    CHECK(given == 1 && v == -170.0f);
    CHECK(njerumoy_grid_variation(-60.0f, -100.0f, -90.0f, &given, &v) == 0);
    CHECK(given == 1 && v == 170.0f);
    CHECK(njerumoy_grid_variation(55.0f, 10.0f, 30.0f, &given, &v) == 0);
    CHECK(given == 1 && v == 20.0f);
    v = HELD;
    CHECK(njerumoy_grid_variation(54.0f, 10.0f, 30.0f, &given, &v) == 0 && given == 0 && v == HELD);
    given = 9;
    CHECK(njerumoy_grid_variation(91.0f, 181.0f, NAN, &given, &v) == 2);
    CHECK(njerumoy_grid_variation(90.0f, 181.0f, NAN, &given, &v) == 3);
    CHECK(njerumoy_grid_variation(90.0f, 180.0f, NAN, &given, &v) == 12 && given == 9 && v == HELD);
}

static void test_root(void) {
    float r = HELD;
    CHECK(njerumoy_square_root(-1.0f, &r) == 12 && r == HELD);
    CHECK(njerumoy_square_root(NAN, &r) == 12 && r == HELD);
    CHECK(njerumoy_square_root(2.0f, &r) == 0 && r == sqrtf(2.0f));
    CHECK(njerumoy_square_root(1e-45f, &r) == 0 && r == sqrtf(1e-45f));
    CHECK(njerumoy_square_root(INFINITY, &r) == 0 && r == INFINITY);
    CHECK(njerumoy_square_root(-0.0f, &r) == 0 && r == 0.0f && signbit(r));
}

int main(void) {
    test_field();
    test_field_refusals();
    test_allowance();
    test_sum();
    test_places_apart();
    test_lengths();
    test_entries();
    test_published();
    test_uncertainty();
    test_epoch();
    test_strengths();
    test_grid();
    test_due_south();
    test_root();
    return outcome();
}
