/* Tests of Field and of the declination's uncertainty with a lent list of error records: which record
 * is used, which figures are refused, the order of the refusals, and that a place keeps what it held
 * where the call has no result for it. Each question is asked in both forms, with loose lists and with
 * the set in one piece, and all that is told must be the same, bit for bit. tools/test-library runs
 * it. */
#include <float.h>
#include <stddef.h>

#include "question.h"

#define FIGURES 8
#define ROOM 20

typedef struct njerumoy_error_record record;

/* A lent list. */
struct records {
    record at[ROOM];
    size_t length;
};

/* The figures of both editions that are built in. */
static const record OF_2020 = {2020, 0.26f, 5625.0f, 0.21f, 145.0f, 128.0f, 131.0f, 94.0f, 157.0f};
static const record OF_2025 = {2025, 0.26f, 5417.0f, 0.20f, 138.0f, 133.0f, 137.0f, 89.0f, 141.0f};

/* Eight figures that are all different, and none is one of another `first`. */
static record made(int32_t epoch_year, float first) {
    const record r = {epoch_year,   first,        first + 0.1f, first + 0.2f, first + 0.3f,
                      first + 0.4f, first + 0.5f, first + 0.6f, first + 0.7f};
    return r;
}

static size_t place_of_figure(int figure) {
    return offsetof(record, declination_sigma_c) + (size_t)figure * sizeof(float);
}

static record with_figure(record r, int figure, float x) {
    memcpy((char *)&r + place_of_figure(figure), &x, sizeof x);
    return r;
}

static struct records list_of(size_t length, const record *at) {
    struct records l;
    for (size_t i = 0; i < ROOM; i++) l.at[i] = made(-1, 900.0f);
    memcpy(l.at, at, length * sizeof *at);
    l.length = length;
    return l;
}

static struct records list_of_one(record r) { return list_of(1, &r); }

static struct records empty(void) { return list_of(0, &OF_2020); }

/* In both forms. The lists and the records hold afterwards what they held. */
static uint32_t ask(struct field *q, const struct records *l) {
    struct field b = *q;
    const struct field before = *q;
    const struct records lent = *l;
    const struct njerumoy_set set = set_of(&b);
    const uint32_t with =
        njerumoy_field_listed_with(&set, place_of(&b), b.year, b.day, l->at, l->length, b.xyz,
                                   b.errors, b.entry, b.years);
    const uint32_t told = njerumoy_field_listed(
        q->height, q->sin_phi, q->cos_phi, q->sin_lambda, q->cos_lambda, q->year, q->day, q->epoch,
        q->lists[0], q->lengths[0], q->lists[1], q->lengths[1], q->lists[2], q->lengths[2],
        q->lists[3], q->lengths[3], l->at, l->length, q->xyz, q->errors, q->entry, q->years);
    CHECK(told == with && same(q, &b));
    CHECK(memcmp(q->lists, before.lists, sizeof before.lists) == 0);
    CHECK(memcmp(l->at, lent.at, sizeof lent.at) == 0);
    return told;
}

/* X, Y and Z as without a list, and the record's eight figures, bit for bit. */
static int answered(struct records l, record used) {
    struct field q = question(), plain = question();
    const struct njerumoy_set set = set_of(&plain);
    return ask(&q, &l) == NJERUMOY_ANSWER &&
           njerumoy_field_with(&set, place_of(&plain), plain.year, plain.day, plain.xyz, plain.errors,
                               plain.entry, plain.years) == NJERUMOY_ANSWER &&
           memcmp(q.xyz, plain.xyz, sizeof q.xyz) == 0 &&
           memcmp(q.errors, (char *)&used + place_of_figure(0), sizeof q.errors) == 0 &&
           kept_entry(&q) && kept_years(&q);
}

static int refused(struct records l, uint32_t number) {
    struct field q = question();
    return ask(&q, &l) == number && kept_all(&q, number);
}

/* In both forms. */
static uint32_t ask_uncertainty(const float xyz[3], int32_t epoch_year, struct records l, float *u) {
    const struct records lent = l;
    struct njerumoy_set set = NJERUMOY_WMM2025;
    float v = *u;
    set.epoch_year = epoch_year;
    const uint32_t with =
        njerumoy_declination_uncertainty_listed_with(&set, xyz, l.at, l.length, &v);
    const uint32_t told = njerumoy_declination_uncertainty_listed(xyz[0], xyz[1], xyz[2], epoch_year,
                                                                  l.at, l.length, u);
    CHECK(told == with && memcmp(u, &v, sizeof v) == 0);
    CHECK(memcmp(l.at, lent.at, sizeof lent.at) == 0);
    return told;
}

static int uncertain(const float xyz[3], int32_t epoch_year, struct records l, float expected) {
    float u = HELD;
    return ask_uncertainty(xyz, epoch_year, l, &u) == NJERUMOY_ANSWER &&
           memcmp(&u, &expected, sizeof u) == 0;
}

static int no_uncertainty(const float xyz[3], int32_t epoch_year, struct records l,
                          uint32_t number) {
    float u = HELD;
    return ask_uncertainty(xyz, epoch_year, l, &u) == number && u == HELD;
}

/* H is 5 here. */
static const float FIELD[3] = {3.0f, -4.0f, 50000.0f};

/* What the definition says of H = 5. */
static float by_figures(record r) {
    const float c = r.declination_sigma_c, v = r.declination_sigma_v / 5.0f;
    return sqrtf(c * c + v * v);
}

/* A record as the only one of its year, asked of both calls. */
static int taken(record r) {
    const float root = by_figures(r);
    const struct records l = list_of_one(r);
    return answered(l, r) && uncertain(FIELD, r.epoch_year, l, root < 180.0f ? root : 180.0f);
}

static int unusable(record r) {
    const struct records l = list_of_one(r);
    return refused(l, NJERUMOY_UNUSABLE) &&
           no_uncertainty(FIELD, r.epoch_year, l, NJERUMOY_UNUSABLE);
}

static void test_layout(void) {
    CHECK(sizeof(record) == 36 && offsetof(record, epoch_year) == 0);
    CHECK(offsetof(record, declination_sigma_c) == 4 && offsetof(record, declination_sigma_v) == 8);
    CHECK(offsetof(record, inclination) == 12 && offsetof(record, f) == 16);
    CHECK(offsetof(record, h) == 20 && offsetof(record, x) == 24);
    CHECK(offsetof(record, y) == 28 && offsetof(record, z) == 32);
}

/* The built-in figures as a list: all that is told, and each refusal, is as without a list. */
static void test_built_in(void) {
    const record both[2] = {OF_2020, OF_2025};
    const struct records l = list_of(2, both);
    const struct njerumoy_set *const sets[2] = {&NJERUMOY_WMM2020, &NJERUMOY_WMM2025};
    const int32_t days[6][2] = {{2020, 1},   {2024, 366}, {2025, 1},
                                {2029, 365}, {2030, 1},   {2025, 366}};
    const float fields[4][3] = {
        {6521.6f, 145.9f, 54791.5f}, {0.0f, 0.0f, 1.0f}, {1.0f, NAN, 1.0f}, {-30.0f, 20.0f, 0.0f}};
    for (int set = 0; set < 2; set++) {
        for (int day = 0; day < 6; day++) {
            struct field a = question(), b = question();
            a.year = b.year = days[day][0];
            a.day = b.day = days[day][1];
            CHECK(njerumoy_field_with(sets[set], place_of(&a), a.year, a.day, a.xyz, a.errors,
                                      a.entry, a.years) ==
                  njerumoy_field_listed_with(sets[set], place_of(&b), b.year, b.day, l.at, l.length,
                                             b.xyz, b.errors, b.entry, b.years));
            CHECK(same(&a, &b));
        }
        for (int i = 0; i < 4; i++) {
            float u = HELD, v = HELD;
            CHECK(njerumoy_declination_uncertainty_with(sets[set], fields[i], &u) ==
                  ask_uncertainty(fields[i], sets[set]->epoch_year, l, &v));
            CHECK(memcmp(&u, &v, sizeof u) == 0);
        }
    }
}

/* Wherever it stands among twenty, and whatever stands behind it. */
static void test_first_wins(void) {
    record at[ROOM];
    for (int first = 0; first < ROOM; first++) {
        for (int i = 0; i < ROOM; i++) {
            const int32_t year = i < first ? 2000 + i : i % 2 == first % 2 ? 2025 : 2020;
            at[i] = made(year, 1.0f + (float)i);
        }
        const struct records l = list_of(ROOM, at);
        CHECK(answered(l, at[first]));
        CHECK(uncertain(FIELD, 2025, l, by_figures(at[first])));
    }
}

/* The list ends where its length says: one more record is not found. */
static void test_no_record(void) {
    CHECK(refused(empty(), NJERUMOY_NO_ERROR_RECORD));
    CHECK(no_uncertainty(FIELD, 2025, empty(), NJERUMOY_NO_ERROR_RECORD));
    record at[ROOM];
    for (size_t last = 0; last < ROOM; last++) {
        for (size_t i = 0; i < ROOM; i++) at[i] = made(i < last ? 2020 : 2025, 1.0f);
        struct records l = list_of(ROOM, at);
        l.length = last;
        CHECK(refused(l, NJERUMOY_NO_ERROR_RECORD));
        CHECK(no_uncertainty(FIELD, 2025, l, NJERUMOY_NO_ERROR_RECORD));
        l.length = last + 1;
        CHECK(answered(l, at[last]));
        CHECK(uncertain(FIELD, 2025, l, by_figures(at[last])));
    }
    /* 12 is not asked of a record of another year */
    CHECK(refused(list_of_one(with_figure(OF_2020, 0, NAN)), NJERUMOY_NO_ERROR_RECORD));
}

/* Each of the eight is looked at, and comes back to the bit where it is taken. */
static void test_figures(void) {
    const float bad[] = {NAN, INFINITY, -INFINITY, -1.0f, -FLT_MIN, -0x1p-149f, -FLT_MAX};
    const float good[] = {0.0f, -0.0f, 0x1p-149f, 0x1.fffffcp-127f, FLT_MIN, 180.0f, FLT_MAX};
    const record whole = made(2025, 1.0f);
    CHECK(taken(whole));
    for (int figure = 0; figure < FIGURES; figure++) {
        for (size_t i = 0; i < sizeof bad / sizeof *bad; i++) {
            CHECK(unusable(with_figure(whole, figure, bad[i])));
        }
        for (size_t i = 0; i < sizeof good / sizeof *good; i++) {
            CHECK(taken(with_figure(whole, figure, good[i])));
        }
    }
}

/* A bad figure of another year, or of a later record of the same year, is not looked at; nor does a
 * good record behind a bad one help. */
static void test_other_records(void) {
    const record good = made(2025, 1.0f);
    for (int figure = 0; figure < FIGURES; figure++) {
        const record bad = with_figure(made(2025, 50.0f), figure, NAN);
        record before = bad, after = bad;
        before.epoch_year = 2020;
        after.epoch_year = INT32_MAX;
        const record at[4] = {before, good, bad, after};
        CHECK(answered(list_of(4, at), good));
        CHECK(uncertain(FIELD, 2025, list_of(4, at), by_figures(good)));
        const record turned[2] = {bad, good};
        CHECK(refused(list_of(2, turned), NJERUMOY_UNUSABLE));
        CHECK(no_uncertainty(FIELD, 2025, list_of(2, turned), NJERUMOY_UNUSABLE));
    }
}

/* Each of 1 to 8 comes before 15 and 12, with all that it carries. */
static void test_order(void) {
    const record next = made(2030, 1.0f);
    const struct records lists[4] = {list_of_one(OF_2025), empty(), list_of_one(next),
                                     list_of_one(with_figure(OF_2025, 7, NAN))};
    for (size_t k = 0; k < COUNT(FIELDS_OWN); k++) {
        const uint32_t number = FIELDS_OWN[k];
        for (int i = 0; i < 4; i++) {
            struct field q = question();
            refuse_by(&q, number);
            CHECK(ask(&q, &lists[i]) == number && kept_all(&q, number));
            CHECK(number != 7 || (q.entry[0] == 3 && q.entry[1] == 89));
            CHECK(number != 8 || (q.years[0] == 2025 && q.years[1] == 2020));
        }
    }
    /* a list opens no new epoch: neither the day's nor the set's */
    struct field q = question();
    q.epoch = 2030;
    CHECK(ask(&q, &lists[2]) == NJERUMOY_EPOCH_YEAR && kept_all(&q, NJERUMOY_EPOCH_YEAR));
    q.year = 2030;
    CHECK(ask(&q, &lists[2]) == NJERUMOY_EPOCH_YEAR && kept_all(&q, NJERUMOY_EPOCH_YEAR));
}

static void test_any_year(void) {
    const int32_t years[6] = {INT32_MIN, -1, 0, 2024, 2030, INT32_MAX};
    for (int i = 0; i < 6; i++) {
        const record r = made(years[i], 3.0f);
        CHECK(uncertain(FIELD, years[i], list_of_one(r), by_figures(r)));
        CHECK(no_uncertainty(FIELD, years[(i + 1) % 6], list_of_one(r), NJERUMOY_NO_ERROR_RECORD));
    }
}

/* 15 comes before all else; 12 is a component's as well as a figure's. */
static void test_components(void) {
    const float bad[] = {NAN, INFINITY, -INFINITY, 0x1.000002p60f, -0x1.000002p60f};
    for (int component = 0; component < 3; component++) {
        for (size_t i = 0; i < sizeof bad / sizeof *bad; i++) {
            float xyz[3] = {3.0f, -4.0f, 50000.0f};
            xyz[component] = bad[i];
            CHECK(no_uncertainty(xyz, 2025, list_of_one(OF_2025), NJERUMOY_UNUSABLE));
            CHECK(no_uncertainty(xyz, 2025, list_of_one(OF_2020), NJERUMOY_NO_ERROR_RECORD));
            CHECK(no_uncertainty(xyz, 2025, empty(), NJERUMOY_NO_ERROR_RECORD));
        }
    }
    const float largest[3] = {0x1p60f, 0.0f, -0x1p60f};
    CHECK(uncertain(largest, 2025, list_of_one(OF_2025), 0.26f));
}

/* 180 where the root is not below it: too large, infinite, or none since H and sigma_v are zero. */
static void test_at_most_180(void) {
    const float no_horizontal[3] = {0.0f, -0.0f, 1.0f};
    const float sigma_v[4] = {0.0f, -0.0f, 0x1p-149f, FLT_MAX};
    const record still = with_figure(OF_2025, 1, 0.0f);
    for (int i = 0; i < 4; i++) {
        const record r = with_figure(OF_2025, 1, sigma_v[i]);
        CHECK(uncertain(no_horizontal, 2025, list_of_one(r), 180.0f));
    }
    CHECK(uncertain(FIELD, 2025, list_of_one(with_figure(still, 0, 179.5f)), 179.5f));
    CHECK(uncertain(FIELD, 2025, list_of_one(with_figure(still, 0, 180.5f)), 180.0f));
    CHECK(uncertain(FIELD, 2025, list_of_one(with_figure(still, 0, FLT_MAX)), 180.0f));
    CHECK(uncertain(FIELD, 2025, list_of_one(with_figure(still, 1, FLT_MAX)), 180.0f));
}

int main(void) {
    test_layout();
    test_built_in();
    test_first_wins();
    test_no_record();
    test_figures();
    test_other_records();
    test_order();
    test_any_year();
    test_components();
    test_at_most_180();
    return outcome();
}
