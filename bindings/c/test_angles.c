/* Tests of angles in degrees: the sine and the cosine of one, the declination and the inclination of a
 * field, and Field in degrees. They ask for what the header promises, for the order of the refusals,
 * and that a place keeps what it held where the call has no result for it. How near a number is, is
 * measured by C's mathematics in double precision. tools/test-library runs it. */
#include <float.h>

#include "question.h"

/* The step after 180, and that after 2^60, among what is refused. */
static const float NO_ANGLES[] = {NAN,           -NAN,           INFINITY, -INFINITY,
                                  0x1.680002p7f, -0x1.680002p7f, 360.0f,   -FLT_MAX};
static const float NO_COMPONENTS[] = {NAN, INFINITY, -INFINITY, 0x1.000002p60f, -0x1.000002p60f};

static const float ZEROS[] = {0.0f, -0.0f};

static int same_bits(float a, float b) { return memcmp(&a, &b, sizeof a) == 0; }

static int has_bits(float a, uint32_t b) { return memcmp(&a, &b, sizeof a) == 0; }

/* ---- sine and cosine */

/* In both forms. */
static uint32_t ask_pair(float degrees, struct njerumoy_pair *pair) {
    float sine = pair->sine, cosine = pair->cosine;
    const uint32_t into = njerumoy_sine_and_cosine_into(pair, degrees);
    const uint32_t told = njerumoy_sine_and_cosine(degrees, &sine, &cosine);
    CHECK(told == into && same_bits(sine, pair->sine) && same_bits(cosine, pair->cosine));
    return told;
}

/* The ends, which are exact; then bits that another program worked out by the definition. */
static void test_pair_bits(void) {
    static const struct {
        float degrees;
        uint32_t sine, cosine;
    } rows[] = {
        {0.0f, 0x00000000, 0x3f800000},          {-0.0f, 0x80000000, 0x3f800000},
        {90.0f, 0x3f800000, 0x00000000},         {-90.0f, 0xbf800000, 0x00000000},
        {180.0f, 0x00000000, 0xbf800000},        {-180.0f, 0x80000000, 0xbf800000},
        {30.0f, 0x3f000000, 0x3f5db3d7},         {-60.0f, 0xbf5db3d7, 0x3f000000},
        {45.0f, 0x3f3504f3, 0x3f3504f3},         {-135.0f, 0xbf3504f3, 0xbf3504f3},
        {80.0f, 0x3f7c1c5c, 0x3e31d0d4},         {52.2f, 0x3f4a4799, 0x3f1ce77a},
        {0x1.680002p6f, 0x3f800000, 0xb40efa35}, {179.99f, 0x3936e917, 0xbf800000},
        {0.001f, 0x379268a9, 0x3f800000},        {1e-20f, 0x1b52ff53, 0x3f800000},
        {0x1p-126f, 0x00023be9, 0x3f800000},     {0x1p-149f, 0x00000000, 0x3f800000},
    };
    for (size_t i = 0; i < COUNT(rows); i++) {
        struct njerumoy_pair pair = {HELD, HELD};
        CHECK(ask_pair(rows[i].degrees, &pair) == NJERUMOY_ANSWER);
        CHECK(has_bits(pair.sine, rows[i].sine) && has_bits(pair.cosine, rows[i].cosine));
    }
}

/* What Field says where a pair is the latitude's, or the longitude's. */
static uint32_t as_latitude(struct njerumoy_pair pair) {
    struct field q = question();
    struct njerumoy_place place = place_of(&q);
    place.latitude = pair;
    return njerumoy_field_with(&NJERUMOY_WMM2025, place, q.year, q.day, q.xyz, q.errors, q.entry,
                               q.years);
}

static uint32_t as_longitude(struct njerumoy_pair pair) {
    struct field q = question();
    struct njerumoy_place place = place_of(&q);
    place.longitude = pair;
    return njerumoy_field_with(&NJERUMOY_WMM2025, place, q.year, q.day, q.xyz, q.errors, q.entry,
                               q.years);
}

/* Every eighth of a degree: near the exact values, and on the circle. */
static void test_pairs(void) {
    for (int i = -8 * 180; i <= 8 * 180; i++) {
        const double degrees = i / 8.0;
        struct njerumoy_pair pair = {HELD, HELD};
        CHECK(ask_pair((float)degrees, &pair) == NJERUMOY_ANSWER);
        CHECK(fabs((double)pair.sine - sin(degrees * RADIAN)) <= 0x1p-22);
        CHECK(fabs((double)pair.cosine - cos(degrees * RADIAN)) <= 0x1p-22);
        CHECK(as_longitude(pair) == NJERUMOY_ANSWER);
        CHECK(as_latitude(pair) == (fabs(degrees) <= 90.0 ? NJERUMOY_ANSWER : NJERUMOY_LATITUDE));
    }
}

static void test_no_pair(void) {
    for (size_t i = 0; i < COUNT(NO_ANGLES); i++) {
        struct njerumoy_pair pair = {HELD, HELD};
        CHECK(ask_pair(NO_ANGLES[i], &pair) == NJERUMOY_ANGLE);
        CHECK(pair.sine == HELD && pair.cosine == HELD);
    }
}

/* ---- declination and inclination */

/* As a call of two numbers, and as one of three. */
static uint32_t ask_declination(float x, float y, float *d) {
    float of_field = *d;
    const uint32_t three = njerumoy_field_declination(x, y, -7.0f, &of_field);
    const uint32_t two = njerumoy_declination(x, y, d);
    CHECK(two == three && same_bits(*d, of_field));
    return two;
}

static int points(float x, float y, float expected) {
    float d = HELD;
    return ask_declination(x, y, &d) == NJERUMOY_ANSWER && same_bits(d, expected);
}

static int inclines(float x, float y, float z, float expected) {
    float i = HELD;
    return njerumoy_inclination(x, y, z, &i) == NJERUMOY_ANSWER && same_bits(i, expected);
}

/* Zeros of both signs, and equal sizes. */
static void test_declination_ends(void) {
    const float sizes[] = {0x1p-149f, 0x1p-126f, 1.0f, 54791.5f, 0x1p60f};
    for (size_t zero = 0; zero < COUNT(ZEROS); zero++) {
        const float o = ZEROS[zero];
        CHECK(points(0.0f, o, 0.0f) && points(-0.0f, o, 0.0f));
        for (size_t i = 0; i < COUNT(sizes); i++) {
            CHECK(points(sizes[i], o, 0.0f) && points(-sizes[i], o, 180.0f));
            CHECK(points(o, sizes[i], 90.0f) && points(o, -sizes[i], -90.0f));
        }
    }
    for (size_t i = 0; i < COUNT(sizes); i++) {
        CHECK(points(sizes[i], sizes[i], 45.0f) && points(-sizes[i], sizes[i], 135.0f));
        CHECK(points(sizes[i], -sizes[i], -45.0f) && points(-sizes[i], -sizes[i], -135.0f));
    }
}

static void test_inclination_ends(void) {
    for (size_t zero = 0; zero < COUNT(ZEROS); zero++) {
        const float o = ZEROS[zero];
        CHECK(inclines(3.0f, -4.0f, o, 0.0f) && inclines(o, 0.0f, o, 0.0f));
        CHECK(inclines(o, 0.0f, 0x1p60f, 90.0f) && inclines(-0.0f, o, -0x1p-149f, -90.0f));
    }
    CHECK(inclines(-3.0f, 4.0f, 5.0f, 45.0f) && inclines(3.0f, -4.0f, -5.0f, -45.0f));
}

/* Within 2^-15 degree of the exact angle. */
static int is_angle(float d, float x, float y) {
    return fabs((double)d - atan2((double)y, (double)x) / RADIAN) <= 0x1p-15 && fabsf(d) <= 180.0f;
}

/* The inclination is the declination's angle, of H and Z. */
static void check_inclination(float x, float y, float z) {
    float h = HELD, angle = HELD;
    CHECK(njerumoy_horizontal(x, y, z, &h) == NJERUMOY_ANSWER);
    CHECK(njerumoy_declination(h, z, &angle) == NJERUMOY_ANSWER);
    CHECK(inclines(x, y, z, angle) && fabsf(angle) <= 90.0f);
}

/* Sizes as far apart as they can be, each with both signs. */
static void test_sizes(void) {
    const float sizes[] = {0x1p-149f, 0x1.8p-140f, 0x1p-126f,       1e-20f, 0.1f,  1.0f,
                           3.0f,      27.5f,       0x1.fffffep+15f, 1e9f,   1e17f, 0x1p59f};
    const size_t n = 2 * COUNT(sizes);
    for (size_t i = 0; i < n * n; i++) {
        const float x = i % 2 ? -sizes[i % n / 2] : sizes[i % n / 2];
        const float y = i / n % 2 ? -sizes[i / n / 2] : sizes[i / n / 2];
        float d = HELD;
        CHECK(ask_declination(x, y, &d) == NJERUMOY_ANSWER && is_angle(d, x, y));
        check_inclination(x, 12.0f, y);
        check_inclination(0.0f, x, y);
    }
}

/* Every eighth of a degree round the circle, at two strengths. */
static void test_round(void) {
    for (int i = -8 * 180; i <= 8 * 180; i++) {
        for (int far = 0; far < 2; far++) {
            const double strength = far ? 1e18 : 30000.0, angle = i / 8.0 * RADIAN;
            const float x = (float)(strength * cos(angle)), y = (float)(strength * sin(angle));
            float d = HELD;
            CHECK(ask_declination(x, y, &d) == NJERUMOY_ANSWER && is_angle(d, x, y));
        }
    }
}

/* Each place by itself. */
static void test_no_direction(void) {
    for (size_t i = 0; i < COUNT(NO_COMPONENTS); i++) {
        for (int place = 0; place < 3; place++) {
            float v[3] = {3.0f, -4.0f, 50000.0f}, two = HELD, three = HELD, inclination = HELD;
            v[place] = NO_COMPONENTS[i];
            CHECK(njerumoy_field_declination(v[0], v[1], v[2], &three) == NJERUMOY_UNUSABLE);
            CHECK(njerumoy_inclination(v[0], v[1], v[2], &inclination) == NJERUMOY_UNUSABLE);
            CHECK(three == HELD && inclination == HELD);
            const uint32_t told = njerumoy_declination(v[0], v[1], &two);
            CHECK(told == (place < 2 ? NJERUMOY_UNUSABLE : NJERUMOY_ANSWER));
            CHECK((two == HELD) == (place < 2));
        }
    }
}

/* ---- Field in degrees */

/* In both forms. */
static uint32_t ask(struct field *q, float latitude, float longitude) {
    struct field b = *q;
    const struct njerumoy_set set = set_of(&b);
    const uint32_t with = njerumoy_field_in_degrees_with(&set, b.height, latitude, longitude, b.year,
                                                         b.day, b.xyz, b.errors, b.entry, b.years);
    const uint32_t told = njerumoy_field_in_degrees(
        q->height, latitude, longitude, q->year, q->day, q->epoch, q->lists[0], q->lengths[0],
        q->lists[1], q->lengths[1], q->lists[2], q->lengths[2], q->lists[3], q->lengths[3], q->xyz,
        q->errors, q->entry, q->years);
    CHECK(told == with && same(q, &b));
    return told;
}

/* Field, of the pairs that are made of the two. */
static uint32_t ask_pairs(struct field *q, float latitude, float longitude) {
    struct njerumoy_place place = {.height = q->height};
    const struct njerumoy_set set = set_of(q);
    CHECK(ask_pair(latitude, &place.latitude) == NJERUMOY_ANSWER);
    CHECK(ask_pair(longitude, &place.longitude) == NJERUMOY_ANSWER);
    return njerumoy_field_with(&set, place, q->year, q->day, q->xyz, q->errors, q->entry, q->years);
}

static uint32_t as_of_pairs(struct field q, float latitude, float longitude) {
    struct field b = q;
    const uint32_t told = ask(&q, latitude, longitude);
    CHECK(told == ask_pairs(&b, latitude, longitude) && same(&q, &b));
    return told;
}

/* Latitudes all round, so also some that are none. No answer is 3, and 2 only beyond 90 degrees. */
static void test_as_of_pairs(void) {
    struct field q = question();
    q.height = 1234.5f;
    q.day = 200;
    for (int i = -24; i <= 24; i++) {
        for (int j = -8; j <= 8; j++) {
            const float latitude = 7.5f * (float)i, longitude = 22.5f * (float)j;
            const uint32_t number = fabsf(latitude) <= 90.0f ? NJERUMOY_ANSWER : NJERUMOY_LATITUDE;
            CHECK(as_of_pairs(q, latitude, longitude) == number);
        }
    }
    /* the first float beyond 90 has a cosine that Field takes */
    CHECK(as_of_pairs(q, nextafterf(90.0f, 180.0f), 0.0f) == NJERUMOY_ANSWER);
    CHECK(as_of_pairs(q, nextafterf(-90.0f, -180.0f), 180.0f) == NJERUMOY_ANSWER);
    CHECK(as_of_pairs(q, 90.0001f, 0.0f) == NJERUMOY_LATITUDE);
    CHECK(as_of_pairs(q, -0.0f, -0.0f) == NJERUMOY_ANSWER);
}

/* The published row of this place and day. */
static void test_row(void) {
    struct field q = question();
    CHECK(ask(&q, 80.0f, 0.0f) == NJERUMOY_ANSWER && kept_entry(&q) && kept_years(&q));
    CHECK(near(q.xyz[0], 6521.6, 0.05) && near(q.xyz[1], 145.9, 0.05));
    CHECK(near(q.xyz[2], 54791.5, 0.05));
    CHECK(q.errors[NJERUMOY_ERROR_INCLINATION] == 0.20f && q.errors[NJERUMOY_ERROR_Z] == 141.0f);
    float d = HELD, i = HELD;
    CHECK(njerumoy_field_declination(q.xyz[0], q.xyz[1], q.xyz[2], &d) == NJERUMOY_ANSWER);
    CHECK(njerumoy_inclination(q.xyz[0], q.xyz[1], q.xyz[2], &i) == NJERUMOY_ANSWER);
    CHECK(near(d, 1.28, 0.005) && near(i, 83.21, 0.005));
}

/* Nothing is written but what the refusal carries. */
static int refused(struct field *q, float latitude, float longitude, uint32_t number) {
    return ask(q, latitude, longitude) == number && kept_all(q, number);
}

/* From the last refusal to the first: each hides those after it. */
static void test_order(void) {
    struct field q = question();
    q.epoch = 2020;
    CHECK(refused(&q, 80.0f, 0.0f, NJERUMOY_OTHER_EPOCH));
    CHECK(q.years[0] == 2025 && q.years[1] == 2020);
    q.years[0] = q.years[1] = HELD_YEAR;
    q.lists[3][89] = -4097.0f;
    CHECK(refused(&q, 80.0f, 0.0f, NJERUMOY_COEFFICIENT) && q.entry[0] == 3 && q.entry[1] == 89);
    q.entry[0] = q.entry[1] = HELD_SIZE;
    q.lengths[3] = N_13;
    CHECK(refused(&q, 80.0f, 0.0f, NJERUMOY_DEGREE));
    q.lengths[2] = 89;
    CHECK(refused(&q, 80.0f, 0.0f, NJERUMOY_LENGTH));
    q.epoch = 2021;
    CHECK(refused(&q, 80.0f, 0.0f, NJERUMOY_EPOCH_YEAR));
    q.day = 366;
    CHECK(refused(&q, 80.0f, 0.0f, NJERUMOY_DAY_OF_YEAR));
    CHECK(refused(&q, -91.0f, 0.0f, NJERUMOY_LATITUDE));
    q.height = 850001.0f;
    CHECK(refused(&q, -91.0f, 0.0f, NJERUMOY_HEIGHT));
    for (size_t i = 0; i < COUNT(NO_ANGLES); i++) {
        CHECK(refused(&q, -91.0f, NO_ANGLES[i], NJERUMOY_ANGLE));
        CHECK(refused(&q, NO_ANGLES[i], 0.0f, NJERUMOY_ANGLE));
        CHECK(refused(&q, NO_ANGLES[i], NO_ANGLES[i], NJERUMOY_ANGLE));
    }
}

int main(void) {
    test_pair_bits();
    test_pairs();
    test_no_pair();
    test_declination_ends();
    test_inclination_ends();
    test_sizes();
    test_round();
    test_no_direction();
    test_as_of_pairs();
    test_row();
    test_order();
    return outcome();
}
