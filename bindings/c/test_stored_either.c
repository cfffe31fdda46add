/* Tests of stored sets of either degree through the C headers: there and back for both forms, Field of
 * their bytes, the refusals with what they carry and in their order, and that a refused call leaves each
 * place as it was. tools/test-library runs it; test_stored.c has the calls for degree 12. */
#include <math.h>

#include "reading.h"

enum { LONGER = NJERUMOY_STORED_LENGTH_13, ROOM = LONGER + 43, HELD_BYTE = 0xa5 };

struct bytes {
    size_t length;
    uint8_t at[ROOM];
};

static struct bytes held_bytes(size_t length) {
    struct bytes b;
    b.length = length;
    memset(b.at, HELD_BYTE, sizeof b.at);
    return b;
}

/* Places for results, with lists of this length. */
static struct reading held_lists(size_t length) {
    struct reading r = held();
    for (int i = 0; i < 4; i++) r.lengths[i] = length;
    return r;
}

/* Entries that are all different, in lists of this length. */
static struct reading filled(size_t length) {
    struct reading r = held_lists(length);
    r.epoch_year = 2025;
    for (int i = 0; i < 4; i++) {
        for (size_t j = 0; j < length; j++) r.lists[i][j] = (float)(200 * i) + (float)j + 0.25f;
    }
    return r;
}

/* The bytes of the lists, by hand: each with its own length. */
static struct bytes bytes_of(const struct reading *r) {
    const uint8_t year[] = {1, 2, 0, (uint8_t)r->epoch_year, (uint8_t)(r->epoch_year >> 8)};
    struct bytes b = held_bytes(sizeof year);
    memcpy(b.at, year, sizeof year);
    for (int i = 0; i < 4; i++) {
        const size_t n = 4 * r->lengths[i];
        const uint8_t head[] = {(uint8_t)(2 + i), (uint8_t)n, (uint8_t)(n >> 8)};
        memcpy(b.at + b.length, head, sizeof head);
        b.length += sizeof head;
        for (size_t j = 0; j < r->lengths[i]; j++) {
            uint32_t bits;
            memcpy(&bits, &r->lists[i][j], sizeof bits);
            for (int k = 0; k < 4; k++) b.at[b.length++] = (uint8_t)(bits >> 8 * k);
        }
    }
    return b;
}

static uint32_t ask_read(const struct bytes *b, struct reading *r) {
    return njerumoy_read_stored_either(b->at, b->length, r->lists[0], r->lengths[0], r->lists[1],
                                       r->lengths[1], r->lists[2], r->lengths[2], r->lists[3],
                                       r->lengths[3], &r->epoch_year, r->entry, &r->where);
}

/* In both forms, with loose lists and with the set in one piece. `entry` is told of 7. */
static uint32_t write_both(const struct reading *r, struct bytes *b, size_t entry[2]) {
    const struct njerumoy_set set = {
        r->epoch_year, r->lists[0],   r->lists[1],   r->lists[2],   r->lists[3],
        r->lengths[0], r->lengths[1], r->lengths[2], r->lengths[3],
    };
    struct bytes c = *b;
    size_t other[2] = {entry[0], entry[1]};
    const uint32_t with = njerumoy_write_stored_either_with(&set, c.at, c.length, other);
    const uint32_t told = njerumoy_write_stored_either(
        r->epoch_year, r->lists[0], r->lengths[0], r->lists[1], r->lengths[1], r->lists[2],
        r->lengths[2], r->lists[3], r->lengths[3], b->at, b->length, entry);
    CHECK(told == with && memcmp(b->at, c.at, ROOM) == 0);
    CHECK(entry[0] == other[0] && entry[1] == other[1]);
    return told;
}

/* Field, asked of bytes that are refused: the height is looked at after them. */
static int field_refused(const struct bytes *b, uint32_t number, size_t place) {
    const struct njerumoy_place at = {NAN, {0.6f, 0.8f}, {0.6f, 0.8f}};
    float xyz[3] = {HELD, HELD, HELD}, errors[8] = {HELD};
    size_t entry[2] = {HELD_SIZE, HELD_SIZE}, where = HELD_SIZE;
    int32_t years[2] = {HELD_YEAR, HELD_YEAR};
    return njerumoy_field_stored_either_at(b->at, b->length, at, 2027, 100, xyz, errors, entry, years,
                                           &where) == number &&
           xyz[0] == HELD && xyz[1] == HELD && xyz[2] == HELD && errors[0] == HELD &&
           entry[0] == HELD_SIZE && years[0] == HELD_YEAR && where == place;
}

/* Into lists of this length: nothing is written but what the refusal carries. */
static int refused_by(const struct bytes *b, size_t length, uint32_t number, size_t place) {
    struct reading r = held_lists(length);
    return ask_read(b, &r) == number && kept(&r, number) && r.where == place;
}

/* By the bytes: whichever length is lent. */
static int refused(const struct bytes *b, uint32_t number, size_t place) {
    return refused_by(b, N, number, place) && refused_by(b, N_13, number, place) &&
           field_refused(b, number, place);
}

static int not_written_entry(const struct reading *r, size_t room, uint32_t number, size_t list,
                             size_t index) {
    const struct bytes before = held_bytes(room);
    struct bytes b = before;
    size_t entry[2] = {HELD_SIZE, HELD_SIZE};
    return write_both(r, &b, entry) == number && memcmp(b.at, before.at, ROOM) == 0 &&
           entry[0] == list && entry[1] == index;
}

static int not_written(const struct reading *r, size_t room, uint32_t number) {
    return not_written_entry(r, room, number, HELD_SIZE, HELD_SIZE);
}

/* A set is written as its bytes, those beyond stay, and they are read as the set. */
static int there_and_back(const struct reading *set) {
    const struct bytes by_hand = bytes_of(set);
    struct bytes written = held_bytes(ROOM);
    size_t entry[2] = {HELD_SIZE, HELD_SIZE};
    struct reading r = held_lists(set->lengths[0]);
    return write_both(set, &written, entry) == NJERUMOY_ANSWER && entry[0] == HELD_SIZE &&
           entry[1] == HELD_SIZE && memcmp(written.at, by_hand.at, ROOM) == 0 &&
           ask_read(&by_hand, &r) == NJERUMOY_ANSWER && r.epoch_year == set->epoch_year &&
           memcmp(r.lists, set->lists, sizeof r.lists) == 0 && kept_carried(&r);
}

static void test_there_and_back(void) {
    const int32_t years[] = {0, 255, 256, 2025, 65535};
    CHECK(NJERUMOY_STORED_LENGTH_13 == 1681);
    for (size_t i = 0; i < COUNT(years); i++) {
        struct reading shorter = filled(N), longer = filled(N_13);
        shorter.epoch_year = longer.epoch_year = years[i];
        CHECK(bytes_of(&shorter).length == NJERUMOY_STORED_LENGTH && there_and_back(&shorter));
        CHECK(bytes_of(&longer).length == LONGER && there_and_back(&longer));
    }
}

/* The set in one piece. */
static void test_owned(void) {
    const struct reading longer = filled(N_13), shorter = filled(N);
    const struct bytes b = bytes_of(&longer), c = bytes_of(&shorter);
    size_t entry[2] = {HELD_SIZE, HELD_SIZE}, place = HELD_SIZE;
    struct njerumoy_owned_set_13 own;
    CHECK(njerumoy_read_stored_into_13(&own, b.at, b.length, entry, &place) == NJERUMOY_ANSWER);
    const struct njerumoy_set set = njerumoy_lent_13(&own);
    const float *const lists[4] = {set.g, set.h, set.g_dot, set.h_dot};
    CHECK(set.epoch_year == 2025 && set.g_length == N_13 && set.h_length == N_13);
    CHECK(set.g_dot_length == N_13 && set.h_dot_length == N_13);
    for (int i = 0; i < 4; i++) CHECK(memcmp(lists[i], longer.lists[i], sizeof own.g) == 0);
    CHECK(njerumoy_read_stored_into_13(&own, c.at, c.length, entry, &place) == NJERUMOY_DEGREE);
    CHECK(own.epoch_year == 2025 && memcmp(own.g, longer.lists[0], sizeof own.g) == 0);
    CHECK(entry[0] == HELD_SIZE && entry[1] == HELD_SIZE && place == HELD_SIZE);
}

/* Lists of the other degree: 23, before an entry is looked at, and nothing is written. */
static void test_other_degree(void) {
    struct reading longer = filled(N_13), shorter = filled(N);
    for (int spoilt = 0; spoilt < 2; spoilt++) {
        const struct bytes b = bytes_of(&longer), c = bytes_of(&shorter);
        CHECK(refused_by(&b, N, NJERUMOY_DEGREE, HELD_SIZE));
        CHECK(refused_by(&c, N_13, NJERUMOY_DEGREE, HELD_SIZE));
        longer.lists[0][0] = shorter.lists[0][0] = NAN;
    }
}

/* Lists of both lengths: the first says which form it is, so the next that differs is refused by 18.
 * They are not written either. */
static void test_mixed(void) {
    for (unsigned mix = 1; mix < 15; mix++) {
        struct reading r = filled(N_13);
        size_t other = 1;
        for (int i = 0; i < 4; i++) r.lengths[i] = mix >> i & 1 ? N_13 : N;
        while (r.lengths[other] == r.lengths[0]) other++;
        const struct bytes b = bytes_of(&r);
        CHECK(refused(&b, NJERUMOY_WRONG_LENGTH, 5 + other * (3 + 4 * r.lengths[0]) + 1));
        CHECK(not_written(&r, 0, NJERUMOY_DEGREE) && not_written(&r, ROOM, NJERUMOY_DEGREE));
    }
}

/* Output lists of both lengths, or of none: before the bytes are looked at. */
static void test_output_lists(void) {
    const size_t lengths[] = {0, 89, 91, 103};
    const struct bytes empty = held_bytes(0);
    for (int list = 0; list < 4; list++) {
        struct reading r = held_lists(N);
        r.lengths[list] = N_13;
        CHECK(ask_read(&empty, &r) == NJERUMOY_DEGREE && kept(&r, NJERUMOY_DEGREE));
        for (size_t i = 0; i < COUNT(lengths); i++) {
            r.lengths[list] = lengths[i];
            r.lengths[(list + 1) % 4] = N_13;
            CHECK(ask_read(&empty, &r) == NJERUMOY_LENGTH && kept(&r, NJERUMOY_LENGTH));
            CHECK(not_written(&r, 0, NJERUMOY_LENGTH));
        }
    }
}

/* Tags, lengths and ends of the longer form. */
static void test_places(void) {
    const size_t fields[] = {0, 5, 424, 843, 1262};
    const struct reading longer = filled(N_13);
    const struct bytes whole = bytes_of(&longer);
    for (size_t i = 0; i < COUNT(fields); i++) {
        struct bytes b = whole;
        b.at[fields[i] + 1]++;
        CHECK(refused(&b, NJERUMOY_WRONG_LENGTH, fields[i] + 1));
        b.at[fields[i]]++;
        CHECK(refused(&b, NJERUMOY_WRONG_TAG, fields[i]));
    }
    for (size_t length = 0; length < LONGER; length++) {
        struct bytes b = whole;
        b.length = length;
        CHECK(refused(&b, NJERUMOY_WRONG_END, length));
    }
    struct bytes b = whole;
    b.length++;
    CHECK(refused(&b, NJERUMOY_WRONG_END, LONGER));
}

/* Entries that only the longer form has, and others. */
static void test_entries(void) {
    const size_t indices[] = {0, N - 1, N, N_13 - 1};
    for (size_t list = 0; list < 4; list++) {
        for (size_t i = 0; i < COUNT(indices); i++) {
            struct reading set = filled(N_13), r = held_lists(N_13);
            set.lists[list][indices[i]] = NAN;
            const struct bytes b = bytes_of(&set);
            CHECK(ask_read(&b, &r) == NJERUMOY_COEFFICIENT && kept(&r, NJERUMOY_COEFFICIENT));
            CHECK(r.entry[0] == list && r.entry[1] == indices[i]);
            CHECK(not_written_entry(&set, 0, NJERUMOY_COEFFICIENT, list, indices[i]));
        }
    }
}

static void test_no_room(void) {
    const size_t rooms[] = {0, 1, NJERUMOY_STORED_LENGTH, LONGER - 1};
    const int32_t years[] = {-1, 65536};
    const struct reading shorter = filled(N);
    struct reading longer = filled(N_13);
    for (size_t i = 0; i < COUNT(rooms); i++) CHECK(not_written(&longer, rooms[i], NJERUMOY_NO_ROOM));
    CHECK(not_written(&shorter, NJERUMOY_STORED_LENGTH - 1, NJERUMOY_NO_ROOM));
    for (size_t i = 0; i < COUNT(years); i++) {
        longer.epoch_year = years[i];
        CHECK(not_written(&longer, ROOM, NJERUMOY_NO_ROOM));
    }
}

/* Field, of bytes as of the lists, to the bit. */
static void test_field(void) {
    const struct njerumoy_place at = {1000.0f, {0.6f, 0.8f}, {-0.28f, 0.96f}};
    const size_t lengths[] = {N, N_13};
    for (size_t i = 0; i < COUNT(lengths); i++) {
        const struct reading r = filled(lengths[i]);
        const struct bytes b = bytes_of(&r);
        const struct njerumoy_set set = {
            r.epoch_year, r.lists[0],   r.lists[1],   r.lists[2],   r.lists[3],
            r.lengths[0], r.lengths[1], r.lengths[2], r.lengths[3],
        };
        float xyz[3], errors[8], xyz_of_set[3], errors_of_set[8];
        size_t entry[2], where;
        int32_t years[2];
        CHECK(njerumoy_field_stored_either_at(b.at, b.length, at, 2027, 100, xyz, errors, entry,
                                              years, &where) == NJERUMOY_ANSWER);
        CHECK(njerumoy_field_with(&set, at, 2027, 100, xyz_of_set, errors_of_set, entry, years) ==
              NJERUMOY_ANSWER);
        CHECK(memcmp(xyz, xyz_of_set, sizeof xyz) == 0);
        CHECK(memcmp(errors, errors_of_set, sizeof errors) == 0);
    }
}

int main(void) {
    test_there_and_back();
    test_owned();
    test_other_degree();
    test_mixed();
    test_output_lists();
    test_places();
    test_entries();
    test_no_room();
    test_field();
    return outcome();
}
