/* Tests of the field in the IGRF profile through the C headers: answers beside the oracle's numbers,
 * between two sets and from 2025 on, and what profile.h asks of every entry. tools/test-library runs
 * it. */
#include "profile.h"

static uint32_t ask(struct asked *q) {
    struct asked b = *q;
    const struct asked before = *q;
    const struct njerumoy_set first = set_of(&b.f), second = second_of(&b);
    const uint32_t with = njerumoy_igrf_with(&first, &second, place_of(&b.f), b.f.year, b.f.day,
                                             b.f.xyz, b.f.entry, b.f.years);
    const uint32_t told = njerumoy_igrf(
        q->f.height, q->f.sin_phi, q->f.cos_phi, q->f.sin_lambda, q->f.cos_lambda, q->f.year,
        q->f.day, q->f.epoch, q->f.lists[0], q->f.lengths[0], q->f.lists[1], q->f.lengths[1],
        q->f.lists[2], q->f.lengths[2], q->f.lists[3], q->f.lengths[3], q->second_epoch,
        q->second[0], q->second_lengths[0], q->second[1], q->second_lengths[1], q->f.xyz,
        q->f.entry, q->f.years);
    CHECK(told == with && same(&q->f, &b.f) && kept_sets(q, &before));
    return told;
}

static int answered(struct asked *q) {
    struct asked b = *q;
    const int has = ask(q) == NJERUMOY_ANSWER;
    memcpy(b.f.xyz, q->f.xyz, sizeof b.f.xyz);
    return has && same(&q->f, &b.f);
}

/* The bits are those of `igrf` of the Rust oracle (oracle/src/igrf.rs) for the same questions: the first
 * and the last day, the days about the turn of 2025, and in degree 13 also a pole. */
static void test_oracle(void) {
    static const struct {
        int longer;
        int32_t year, day;
        float sin_phi, cos_phi;
        uint32_t bits[3];
    } rows[] = {
        {0, 2000, 1, 0.6f, 0.8f, {0x46d56105, 0xc502b688, 0x47005a2a}},
        {0, 2022, 200, 0.6f, 0.8f, {0x46d6075f, 0xc4ec9b7c, 0x47003f6b}},
        {1, 2013, 77, 0.6f, 0.8f, {0x46d61b3b, 0xc4ea798e, 0x47006048}},
        {1, 2013, 77, 1.0f, 0.0f, {0x44ddade8, 0xc338fb5c, 0x475deac8}},
        {0, 2024, 366, 0.6f, 0.8f, {0x46d6a7a5, 0xc4d4b271, 0x470025a5}},
        {0, 2025, 1, 0.6f, 0.8f, {0x46d6a7d4, 0xc4d4ab9c, 0x4700259d}},
        {1, 2027, 100, 0.6f, 0.8f, {0x46d7100d, 0xc4bf88a8, 0x47002077}},
        {1, 2027, 100, 1.0f, 0.0f, {0x44deb7a3, 0x428af217, 0x475e4e7a}},
        {0, 2029, 365, 0.6f, 0.8f, {0x46d7a96d, 0xc4a3d33b, 0x46fff188}},
    };
    for (size_t i = 0; i < COUNT(rows); i++) {
        struct asked q = on(rows[i].year, rows[i].day);
        if (rows[i].longer) q = longer(q);
        q.f.sin_phi = rows[i].sin_phi;
        q.f.cos_phi = rows[i].cos_phi;
        CHECK(answered(&q) && memcmp(q.f.xyz, rows[i].bits, sizeof q.f.xyz) == 0);
    }
}

/* One coefficient of degree 1, at the equator and longitude 0: with k the cube of the radius ratio X is
 * -g_1^0 k. It goes from 1000 nT to 2000 in five years, and from 2025 on by 30 nT a year. */
static void test_by_hand(void) {
    const double k = pow(6371200.0 / (6378137.0 + 1000.0), 3.0);
    struct asked q = on(2016, 1);
    memset(q.f.lists, 0, sizeof q.f.lists);
    memset(q.second, 0, sizeof q.second);
    q.f.sin_phi = q.f.sin_lambda = 0.0f;
    q.f.cos_phi = q.f.cos_lambda = 1.0f;
    q.f.lists[0][0] = 1000.0f;
    q.f.lists[2][0] = 30.0f;
    q.second[0][0] = 2000.0f;
    CHECK(answered(&q) && near(q.f.xyz[0], -1200.0 * k, 0.001));
    CHECK(q.f.xyz[1] == 0.0f && q.f.xyz[2] == 0.0f);
    q.f.year = 2027;
    q.f.epoch = 2025;
    CHECK(answered(&q) && near(q.f.xyz[0], -1060.0 * k, 0.001));
}

int main(void) {
    test_oracle();
    test_by_hand();
    test_profile();
    return outcome();
}
