/* Tests of reading and writing stored sets through the C headers: the bytes of a set, that a set
 * reads back to the same bits and bytes write back the same, every refusal with what it carries and
 * in its order, and that a refused call leaves each place as it was. Each call is made in both forms,
 * with loose lists and with the set in one piece, and all that is told must be the same, bit for bit.
 * tools/test-library runs it; test_stored_field.c has Field with stored bytes. */
#include <float.h>
#include <math.h>

#include "bytes.h"
#include "reading.h"

static const float CAPS[4] = {65536.0f, 65536.0f, 4096.0f, 4096.0f};

/* A set in the lists of a reading, which can be lent one float too long. */
static struct reading reading_of(const struct njerumoy_set *set) {
    const float *const lists[4] = {set->g, set->h, set->g_dot, set->h_dot};
    struct reading r = held();
    r.epoch_year = set->epoch_year;
    for (int i = 0; i < 4; i++) memcpy(r.lists[i], lists[i], N * sizeof(float));
    return r;
}

static struct njerumoy_set set_in(const struct reading *r) {
    const struct njerumoy_set set = {
        r->epoch_year, r->lists[0],   r->lists[1],   r->lists[2],   r->lists[3],
        r->lengths[0], r->lengths[1], r->lengths[2], r->lengths[3],
    };
    return set;
}

static uint32_t ask_read(const struct bytes *b, struct reading *r) {
    return njerumoy_read_stored(b->at, b->length, r->lists[0], r->lengths[0], r->lists[1],
                                r->lengths[1], r->lists[2], r->lengths[2], r->lists[3],
                                r->lengths[3], &r->epoch_year, r->entry, &r->where);
}

/* In both forms, from what each place held. */
static uint32_t read_both(const struct bytes *b, struct reading *r) {
    struct njerumoy_owned_set own = held_set();
    struct reading c = *r = held();
    const uint32_t into = njerumoy_read_stored_into(&own, b->at, b->length, c.entry, &c.where);
    const uint32_t told = ask_read(b, r);
    CHECK(told == into && told_alike(r, &own, &c));
    return told;
}

/* In both forms. `entry` is told of 7. */
static uint32_t write_both(const struct njerumoy_set *set, struct bytes *b, size_t entry[2]) {
    struct bytes c = *b;
    size_t other[2] = {entry[0], entry[1]};
    const uint32_t with = njerumoy_write_stored_with(set, c.at, c.length, other);
    const uint32_t told = njerumoy_write_stored(
        set->epoch_year, set->g, set->g_length, set->h, set->h_length, set->g_dot,
        set->g_dot_length, set->h_dot, set->h_dot_length, b->at, b->length, entry);
    CHECK(told == with && memcmp(b->at, c.at, ROOM) == 0);
    CHECK(entry[0] == other[0] && entry[1] == other[1]);
    return told;
}

static int refused(struct bytes b, uint32_t number, size_t place) {
    struct reading r;
    return read_both(&b, &r) == number && kept(&r, number) && r.where == place;
}

static int refused_entry(struct bytes b, size_t list, size_t index) {
    struct reading r;
    return read_both(&b, &r) == NJERUMOY_COEFFICIENT && kept(&r, NJERUMOY_COEFFICIENT) &&
           r.entry[0] == list && r.entry[1] == index;
}

/* A set is written as its bytes, those beyond stay, and they are read as the set. */
static int round_trip(const struct njerumoy_set *set) {
    const struct bytes by_hand = bytes_of(set);
    struct bytes written = held_bytes(ROOM);
    size_t entry[2] = {HELD_SIZE, HELD_SIZE};
    struct reading r;
    return write_both(set, &written, entry) == NJERUMOY_ANSWER && entry[0] == HELD_SIZE &&
           entry[1] == HELD_SIZE && memcmp(written.at, by_hand.at, ROOM) == 0 &&
           read_both(&by_hand, &r) == NJERUMOY_ANSWER && same_set(&r, set) && kept_carried(&r) &&
           r.lists[0][N] == HELD;
}

static int not_written_entry(const struct njerumoy_set *set, size_t room, uint32_t number,
                             size_t list, size_t index) {
    const struct bytes before = held_bytes(room);
    struct bytes b = before;
    size_t entry[2] = {HELD_SIZE, HELD_SIZE};
    return write_both(set, &b, entry) == number && memcmp(b.at, before.at, ROOM) == 0 &&
           entry[0] == list && entry[1] == index;
}

static int not_written(const struct njerumoy_set *set, size_t room, uint32_t number) {
    return not_written_entry(set, room, number, HELD_SIZE, HELD_SIZE);
}

/* The bytes themselves: 2025, 1, -0 and the least float above 0. */
static void test_bytes(void) {
    const uint8_t head[] = {1, 2, 0, 0xe9, 7, 2, 0x68, 1, 0, 0, 0x80, 0x3f, 0, 0, 0, 0x80};
    const uint8_t last[] = {1, 0, 0, 0};
    struct reading r = reading_of(&NJERUMOY_WMM2025);
    r.lists[0][0] = 1.0f;
    r.lists[0][1] = -0.0f;
    r.lists[3][N - 1] = 0x1p-149f;
    const struct njerumoy_set set = set_in(&r);
    struct bytes b = held_bytes(STORED);
    size_t entry[2] = {HELD_SIZE, HELD_SIZE};
    CHECK(NJERUMOY_STORED_LENGTH == 1457);
    CHECK(write_both(&set, &b, entry) == NJERUMOY_ANSWER);
    CHECK(memcmp(b.at, head, sizeof head) == 0);
    CHECK(memcmp(b.at + STORED - sizeof last, last, sizeof last) == 0);
}

/* The published sets, and numbers that are all different with years that fill either byte. */
static void test_sets(void) {
    const int32_t years[] = {0, 1, 255, 256, 2030, 32768, 65535};
    struct reading r = held();
    CHECK(round_trip(&NJERUMOY_WMM2020));
    CHECK(round_trip(&NJERUMOY_WMM2025));
    for (int i = 0; i < 4; i++) {
        for (int j = 0; j < N; j++) r.lists[i][j] = (float)(100 * i + j) + 0.25f;
    }
    for (size_t i = 0; i < sizeof years / sizeof *years; i++) {
        r.epoch_year = years[i];
        const struct njerumoy_set set = set_in(&r);
        CHECK(round_trip(&set));
    }
}

/* Each of these at every place of every list. */
static void test_numbers(void) {
    const float numbers[] = {0.0f,    -0.0f,    0x1p-149f, -0x1p-149f, 0x1.fffffcp-127f,
                             FLT_MIN, -FLT_MIN, 4096.0f,   -4096.0f};
    const size_t count = sizeof numbers / sizeof *numbers;
    struct reading r = reading_of(&NJERUMOY_WMM2025);
    const struct njerumoy_set set = set_in(&r);
    for (size_t first = 0; first < count; first++) {
        for (size_t i = 0; i < 4; i++) {
            for (size_t j = 0; j < N; j++) r.lists[i][j] = numbers[(first + i + j) % count];
        }
        CHECK(round_trip(&set));
    }
}

/* The bytes need no alignment. */
static void test_alignment(void) {
    const struct bytes by_hand = bytes_of_2025();
    for (size_t shift = 0; shift < 16; shift++) {
        uint8_t moved[ROOM];
        struct njerumoy_owned_set own = held_set();
        struct reading r = reading_of(&NJERUMOY_WMM2025);
        uint8_t *const at = moved + shift;
        CHECK(njerumoy_write_stored_with(&NJERUMOY_WMM2025, at, STORED, r.entry) == 0);
        CHECK(memcmp(at, by_hand.at, STORED) == 0);
        CHECK(njerumoy_read_stored_into(&own, at, STORED, r.entry, &r.where) == 0);
        CHECK(told_alike(&r, &own, &r));
    }
}

/* Refusal 6 comes before any byte is looked at. */
static void test_output_lists(void) {
    const struct bytes good = bytes_of_2025(), none = held_bytes(0);
    const size_t lengths[] = {0, N - 1, N + 1, N_13};
    for (int list = 0; list < 4; list++) {
        for (size_t i = 0; i < COUNT(lengths); i++) {
            struct reading r = held();
            r.lengths[list] = lengths[i];
            CHECK(ask_read(&good, &r) == NJERUMOY_LENGTH && kept(&r, NJERUMOY_LENGTH));
            CHECK(ask_read(&none, &r) == NJERUMOY_LENGTH && kept(&r, NJERUMOY_LENGTH));
        }
    }
}

/* Every tag but the one that is due, and every length that has one bit or the bytes turned round. */
static void test_heads(void) {
    for (size_t field = 0; field < 5; field++) {
        const size_t place = FIELDS[field];
        for (int tag = 0; tag < 256; tag++) {
            struct bytes b = bytes_of_2025();
            b.at[place] = (uint8_t)tag;
            CHECK((size_t)tag == field + 1 || refused(b, NJERUMOY_WRONG_TAG, place));
        }
        for (int bit = 0; bit < 16; bit++) {
            struct bytes b = bytes_of_2025();
            b.at[place + 1 + (size_t)bit / 8] ^= (uint8_t)(1 << bit % 8);
            CHECK(refused(b, NJERUMOY_WRONG_LENGTH, place + 1));
        }
        struct bytes b = bytes_of_2025();
        const uint8_t low = b.at[place + 1];
        b.at[place + 1] = b.at[place + 2];
        b.at[place + 2] = low;
        CHECK(refused(b, NJERUMOY_WRONG_LENGTH, place + 1));
    }
}

/* Cut short everywhere, and with more bytes than a set has: told by the place which it is. */
static void test_ends(void) {
    struct bytes b = bytes_of_2025();
    for (b.length = 0; b.length < STORED; b.length++) {
        CHECK(refused(b, NJERUMOY_WRONG_END, b.length));
    }
    for (b.length = STORED + 1; b.length <= ROOM; b.length++) {
        CHECK(refused(b, NJERUMOY_WRONG_END, STORED));
    }
}

/* The first place is told. Behind it the bytes may be wrong, or end. */
static void test_first_place(void) {
    struct bytes b = bytes_of_2025();
    b.length = ROOM;
    put(&b, 0, 0, NAN);
    CHECK(refused(b, NJERUMOY_WRONG_END, STORED));
    for (size_t field = 5; field-- > 0;) {
        const size_t place = FIELDS[field];
        b.at[place + 2] ^= 0x80;
        CHECK(refused(b, NJERUMOY_WRONG_LENGTH, place + 1));
        b.length = place + 3;
        CHECK(refused(b, NJERUMOY_WRONG_LENGTH, place + 1));
        b.length = place + 2;
        CHECK(refused(b, NJERUMOY_WRONG_END, place + 2));
        b.at[place] ^= 0x80;
        CHECK(refused(b, NJERUMOY_WRONG_TAG, place));
        b.length = place + 1;
        CHECK(refused(b, NJERUMOY_WRONG_TAG, place));
        b.length = place;
        CHECK(refused(b, NJERUMOY_WRONG_END, place));
        b.length = STORED;
    }
}

/* Every entry of every list: at its cap it is read, a step above it or as no number refused. */
static void test_entries(void) {
    const uint32_t no_numbers[] = {0x7f800001, 0x7fc00000, 0xffffffff, 0x7f800000, 0xff800000};
    for (size_t i = 0; i < 4; i++) {
        const float above = nextafterf(CAPS[i], INFINITY);
        for (size_t j = 0; j < N; j++) {
            struct bytes b = bytes_of_2025();
            struct reading r;
            put(&b, i, j, -CAPS[i]);
            CHECK(read_both(&b, &r) == NJERUMOY_ANSWER && r.lists[i][j] == -CAPS[i]);
            put(&b, i, j, above);
            CHECK(refused_entry(b, i, j));
            put(&b, i, j, -above);
            CHECK(refused_entry(b, i, j));
            put_bits(&b, i, j, no_numbers[(i + j) % 5]);
            CHECK(refused_entry(b, i, j));
        }
    }
    /* by list first, then by index */
    struct bytes b = bytes_of_2025();
    put(&b, 3, 0, NAN);
    put(&b, 2, 89, NAN);
    put(&b, 2, 88, NAN);
    CHECK(refused_entry(b, 2, 88));
}

/* Every output that is too short, and the years next to those that are stored. */
static void test_no_room(void) {
    const int32_t years[] = {-1, 65536, INT32_MIN, INT32_MAX, 2025 + 65536, 2025 - 65536};
    struct njerumoy_set set = NJERUMOY_WMM2025;
    for (size_t room = 0; room < STORED; room++) {
        CHECK(not_written(&set, room, NJERUMOY_NO_ROOM));
    }
    for (size_t i = 0; i < sizeof years / sizeof *years; i++) {
        set.epoch_year = years[i];
        CHECK(not_written(&set, ROOM, NJERUMOY_NO_ROOM));
    }
}

/* From the last refusal of writing to the first: each hides those after it. */
static void test_order_of_writing(void) {
    const size_t lengths[] = {0, N - 1, N + 1, N_13};
    struct reading r = reading_of(&NJERUMOY_WMM2025);
    r.epoch_year = -1;
    struct njerumoy_set set = set_in(&r);
    CHECK(not_written(&set, 0, NJERUMOY_NO_ROOM));
    for (size_t i = 4; i-- > 0;) {
        r.lists[i][N - 1] = -nextafterf(CAPS[i], INFINITY);
        CHECK(not_written_entry(&set, 0, NJERUMOY_COEFFICIENT, i, N - 1));
        r.lists[i][7] = NAN;
        CHECK(not_written_entry(&set, ROOM, NJERUMOY_COEFFICIENT, i, 7));
    }
    for (int list = 0; list < 4; list++) {
        for (size_t i = 0; i < COUNT(lengths); i++) {
            struct reading b = r;
            b.lengths[list] = lengths[i];
            set = set_in(&b);
            CHECK(not_written(&set, 0, NJERUMOY_LENGTH) && not_written(&set, ROOM, NJERUMOY_LENGTH));
        }
    }
}

int main(void) {
    test_bytes();
    test_sets();
    test_numbers();
    test_alignment();
    test_output_lists();
    test_heads();
    test_ends();
    test_first_place();
    test_entries();
    test_no_room();
    test_order_of_writing();
    return outcome();
}
