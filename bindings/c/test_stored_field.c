/* Tests of Field with stored bytes through the C headers: it tells what reading the bytes tells, and
 * then what Field of that set tells, bit for bit. Each question is asked in both forms, with loose
 * numbers and with the place in one piece. tools/test-library runs it. */
#include "bytes.h"
#include "question.h"

/* In both forms. */
static uint32_t ask(const struct bytes *b, struct field *q, size_t *place) {
    struct field c = *q;
    size_t other = *place;
    const uint32_t at =
        njerumoy_field_stored_at(b->at, b->length, place_of(&c), c.year, c.day, c.xyz, c.errors,
                                 c.entry, c.years, &other);
    const uint32_t told = njerumoy_field_stored(
        b->at, b->length, q->height, q->sin_phi, q->cos_phi, q->sin_lambda, q->cos_lambda, q->year,
        q->day, q->xyz, q->errors, q->entry, q->years, place);
    CHECK(told == at && same(q, &c) && *place == other);
    return told;
}

/* Beside the two calls that it stands for. */
static uint32_t ask_alike(const struct bytes *b, struct field *q) {
    struct field c = *q;
    struct njerumoy_owned_set own;
    size_t place = HELD_SIZE, other = HELD_SIZE;
    uint32_t number = njerumoy_read_stored_into(&own, b->at, b->length, c.entry, &other);
    if (number == NJERUMOY_ANSWER) {
        const struct njerumoy_set set = njerumoy_lent(&own);
        number = njerumoy_field_with(&set, place_of(&c), c.year, c.day, c.xyz, c.errors, c.entry,
                                     c.years);
    }
    CHECK(ask(b, q, &place) == number && same(q, &c) && place == other);
    return number;
}

/* Whether the question is accepted or refused in every part. */
static int refused_bytes(const struct bytes *b, uint32_t number) {
    struct field good = question(), bad = question();
    bad.height = bad.cos_phi = bad.cos_lambda = NAN;
    bad.year = bad.day = 0;
    return ask_alike(b, &good) == number && kept_all(&good, number) &&
           ask_alike(b, &bad) == number && kept_all(&bad, number);
}

/* By the set of the question itself. */
static uint32_t ask_own(struct field *q) {
    const struct njerumoy_set set = set_of(q);
    const struct bytes b = bytes_of(&set);
    return ask_alike(&b, q);
}

static void test_answers(void) {
    struct field q = question();
    CHECK(ask_own(&q) == NJERUMOY_ANSWER);
    /* numbers that are all different, so that no two can be handed on in each other's place */
    q.height = 1234.5f;
    q.sin_lambda = 0.6f;
    q.cos_lambda = -0.8f;
    q.day = 200;
    CHECK(ask_own(&q) == NJERUMOY_ANSWER);
    q.epoch = 2020;
    q.year = 2024;
    q.day = 366;
    CHECK(ask_own(&q) == NJERUMOY_ANSWER);
}

/* From the last refusal of Field to the first: each hides those after it. */
static void test_refusals_of_field(void) {
    struct field q = question();
    q.epoch = 2020;
    CHECK(ask_own(&q) == NJERUMOY_OTHER_EPOCH && kept_all(&q, NJERUMOY_OTHER_EPOCH));
    CHECK(q.years[0] == 2025 && q.years[1] == 2020);
    q = question();
    q.epoch = 2021;
    CHECK(ask_own(&q) == NJERUMOY_EPOCH_YEAR && kept_all(&q, NJERUMOY_EPOCH_YEAR));
    q.year = 2030;
    CHECK(ask_own(&q) == NJERUMOY_EPOCH_YEAR && kept_all(&q, NJERUMOY_EPOCH_YEAR));
    q.day = 366;
    CHECK(ask_own(&q) == NJERUMOY_DAY_OF_YEAR && kept_all(&q, NJERUMOY_DAY_OF_YEAR));
    q.cos_lambda = 0.5f;
    CHECK(ask_own(&q) == NJERUMOY_LONGITUDE && kept_all(&q, NJERUMOY_LONGITUDE));
    q.cos_phi = -q.cos_phi;
    CHECK(ask_own(&q) == NJERUMOY_LATITUDE && kept_all(&q, NJERUMOY_LATITUDE));
    q.height = NAN;
    CHECK(ask_own(&q) == NJERUMOY_HEIGHT && kept_all(&q, NJERUMOY_HEIGHT));
}

static void test_refused_bytes(void) {
    struct bytes b = bytes_of_2025();
    for (b.length = 0; b.length <= ROOM; b.length++) {
        CHECK(b.length == STORED || refused_bytes(&b, NJERUMOY_WRONG_END));
    }
    for (size_t field = 0; field < 5; field++) {
        b = bytes_of_2025();
        b.at[FIELDS[field] + 2] ^= 0x80;
        CHECK(refused_bytes(&b, NJERUMOY_WRONG_LENGTH));
        b.at[FIELDS[field]] ^= 0x80;
        CHECK(refused_bytes(&b, NJERUMOY_WRONG_TAG));
    }
    for (size_t i = 0; i < 4; i++) {
        for (size_t j = 0; j < N; j++) {
            b = bytes_of_2025();
            put(&b, i, j, NAN);
            CHECK(refused_bytes(&b, NJERUMOY_COEFFICIENT));
        }
    }
}

/* The published set with any one byte turned round: what it then is, both ways tell alike. */
static void test_every_byte(void) {
    for (size_t at = 0; at < STORED; at++) {
        struct bytes b = bytes_of_2025();
        struct field q = question();
        b.at[at] ^= 0xff;
        ask_alike(&b, &q);
    }
}

int main(void) {
    test_answers();
    test_refusals_of_field();
    test_refused_bytes();
    test_every_byte();
    return outcome();
}
