/* Tests of the reader of coefficient files through its C headers: both published sets as files,
 * every refusal with what it carries, and that a refused file leaves each place as it was. Each file
 * is read in both forms, into loose lists and into a set in one piece, and all that is told must be
 * the same, bit for bit. tools/test-library runs it. Its one word is the folder with the files:
 * data. */
#include <stdlib.h>

#include "reading.h"

/* A file's bytes. */
struct text {
    size_t length;
    uint8_t bytes[8192];
};

static struct text file_2020, file_2025;

static struct text read_file(const char *folder, const char *name) {
    struct text t = {0, {0}};
    char path[4096];
    snprintf(path, sizeof path, "%s/%s", folder, name);
    FILE *file = fopen(path, "rb");
    if (file != NULL) {
        t.length = fread(t.bytes, 1, sizeof t.bytes, file);
        fclose(file);
    }
    CHECK_OF(0 < t.length && t.length < sizeof t.bytes, path);
    return t;
}

/* Where a line begins, counted from 1; behind the last one, the file's end. */
static size_t start_of(const struct text *t, size_t line) {
    size_t at = 0;
    while (line > 1 && at < t->length) line -= t->bytes[at++] == '\n';
    return at;
}

/* The file with other bytes from line `from` on, up to line `to`, which stays. */
static struct text with(const struct text *t, size_t from, size_t to, const char *bytes) {
    const size_t head = start_of(t, from), tail = start_of(t, to), length = strlen(bytes);
    struct text u = *t;
    u.length = head + length + (t->length - tail);
    memcpy(u.bytes + head, bytes, length);
    memcpy(u.bytes + head + length, t->bytes + tail, t->length - tail);
    return u;
}

/* The file of 2025 with another line, ended by LF. */
static struct text with_line(size_t line, const char *words) {
    char bytes[128];
    snprintf(bytes, sizeof bytes, "%s\n", words);
    return with(&file_2025, line, line + 1, bytes);
}

/* The file of 2025 with one word more or less, or another one, in line 37: degree 8, order 0. */
static struct text with_number(const char *word) {
    char words[100];
    snprintf(words, sizeof words, "8 0 %s 0.0 -0.1 0.0", word);
    return with_line(37, words);
}

static struct text of_bytes(const char *bytes) { return with(&file_2025, 1, 1000, bytes); }

/* The first lines of the file of 2025. */
static struct text first_lines(size_t count) { return with(&file_2025, count + 1, 1000, ""); }

static uint32_t ask(const struct text *t, struct reading *r) {
    return njerumoy_read_cof(t->bytes, t->length, r->lists[0], r->lengths[0], r->lists[1],
                             r->lengths[1], r->lists[2], r->lengths[2], r->lists[3], r->lengths[3],
                             &r->epoch_year, r->entry, &r->where);
}

/* In both forms, from what each place held. */
static uint32_t ask_both(const struct text *t, struct reading *r) {
    struct njerumoy_owned_set own = held_set();
    struct reading b = *r = held();
    const uint32_t into = njerumoy_read_cof_into(&own, t->bytes, t->length, b.entry, &b.where);
    const uint32_t told = ask(t, r);
    CHECK(told == into && told_alike(r, &own, &b));
    return told;
}

static int refused(struct text t, uint32_t number, size_t line) {
    struct reading r;
    return ask_both(&t, &r) == number && kept(&r, number) && r.where == line;
}

static int refused_entry(struct text t, size_t list, size_t index) {
    struct reading r;
    return ask_both(&t, &r) == NJERUMOY_COEFFICIENT && kept(&r, NJERUMOY_COEFFICIENT) &&
           r.entry[0] == list && r.entry[1] == index;
}

/* All 90 numbers of each list and the year, bit for bit, and nothing else is written. */
static int reads(struct text t, const struct njerumoy_set *set) {
    struct reading r;
    return ask_both(&t, &r) == NJERUMOY_ANSWER && same_set(&r, set) && kept_carried(&r) &&
           r.lists[0][N] == HELD;
}

static void test_published(void) {
    CHECK(reads(file_2020, &NJERUMOY_WMM2020));
    CHECK(reads(file_2025, &NJERUMOY_WMM2025));
    CHECK(NJERUMOY_WMM2020.epoch_year == 2020 && NJERUMOY_WMM2025.epoch_year == 2025);
}

/* Refusal 6 comes before any line is looked at. */
static void test_lengths(void) {
    const struct text empty = of_bytes("");
    const size_t lengths[] = {0, N - 1, N + 1, N_13};
    for (int list = 0; list < 4; list++) {
        for (size_t i = 0; i < COUNT(lengths); i++) {
            struct reading r = held();
            r.lengths[list] = lengths[i];
            CHECK(ask(&file_2025, &r) == NJERUMOY_LENGTH && kept(&r, NJERUMOY_LENGTH));
            CHECK(ask(&empty, &r) == NJERUMOY_LENGTH && kept(&r, NJERUMOY_LENGTH));
        }
    }
}

static void test_malformed(void) {
    const char *const words[] = {"+5",          ".5",           "5.", "1e3",   "-",   ".",
                                 "-.5",         "--5",          "5-", "1.2.3", "1,5", "nan",
                                 "inf",         "0x1",          "5f", "1 2",   "",    "1234567890",
                                 "1234567.890", "-0000000.000", "5\r"};
    for (size_t i = 0; i < sizeof words / sizeof *words; i++) {
        CHECK_OF(refused(with_number(words[i]), NJERUMOY_MALFORMED, 37), words[i]);
    }
    const char *const lines[] = {"", " ", "8 0", "8.5 0 0 0 0 0", "8 0.5 0 0 0 0", "8 0 0 0 0 9x"};
    for (size_t i = 0; i < sizeof lines / sizeof *lines; i++) {
        CHECK_OF(refused(with_line(37, lines[i]), NJERUMOY_MALFORMED, 37), lines[i]);
    }
    const char *const headers[] = {"", "WMM-2025 2025.0", "2025.5", "+2025", "2025. WMM", "\r2025"};
    for (size_t i = 0; i < sizeof headers / sizeof *headers; i++) {
        CHECK_OF(refused(with_line(1, headers[i]), NJERUMOY_MALFORMED, 1), headers[i]);
    }
    const char *const ends[] = {"", "99 98", "9.9", "-9", "13 0 0.0 0.0 0.0 0.0", "99\r\r"};
    for (size_t i = 0; i < sizeof ends / sizeof *ends; i++) {
        CHECK_OF(refused(with_line(92, ends[i]), NJERUMOY_MALFORMED, 92), ends[i]);
        CHECK_OF(refused(with_line(93, ends[i]), NJERUMOY_MALFORMED, 93), ends[i]);
    }
}

static void test_out_of_order(void) {
    CHECK(refused(of_bytes(""), NJERUMOY_OUT_OF_ORDER, 1));
    /* the file ends */
    for (size_t count = 1; count <= N; count++) {
        CHECK(refused(first_lines(count), NJERUMOY_OUT_OF_ORDER, count + 1));
    }
    /* a line is missing, and where it is the last, nines stand in its place */
    for (size_t line = 2; line <= N + 1; line++) {
        CHECK(refused(with(&file_2025, line, line + 1, ""), NJERUMOY_OUT_OF_ORDER, line));
    }
    const char *const lines[] = {"8 1 0 0 0 0", "7 0 0 0 0 0", "-8 0 0 0 0 0", "0 8 0 0 0 0",
                                 "999999",      "9 9 9 9 9 9", "\t99 9"};
    for (size_t i = 0; i < sizeof lines / sizeof *lines; i++) {
        CHECK_OF(refused(with_line(37, lines[i]), NJERUMOY_OUT_OF_ORDER, 37), lines[i]);
    }
    /* of degree and order 9, which are due there */
    const struct text nines = with_line(55, "9 9 9 9 9 9");
    struct reading r;
    CHECK(ask_both(&nines, &r) == NJERUMOY_ANSWER && r.lists[0][53] == 9.0f);
    CHECK(refused(with_line(37, "9 9 9 9 9 x"), NJERUMOY_MALFORMED, 37));
    CHECK(refused(with_line(37, "8 1 0 0 0 +5"), NJERUMOY_MALFORMED, 37));
}

/* The first line that is refused is told, by either number; 7 comes after all lines. */
static void test_first(void) {
    struct text t = with_line(37, "8 0 0 0 0");
    CHECK(refused(with(&t, 35, 36, ""), NJERUMOY_OUT_OF_ORDER, 35));
    CHECK(refused(with(&t, 39, 40, ""), NJERUMOY_MALFORMED, 37));
    t = with_number("65537");
    CHECK(refused_entry(t, 0, 35));
    CHECK(refused(with(&t, 91, 92, ""), NJERUMOY_OUT_OF_ORDER, 91));
    CHECK(refused(with(&t, 93, 94, "end\n"), NJERUMOY_MALFORMED, 93));
}

static void test_coefficients(void) {
    CHECK(refused_entry(with_line(2, "1 0 65536.01 0 0 0"), 0, 0));
    CHECK(refused_entry(with_line(3, "1 1 0 -65537 0 0"), 1, 1));
    CHECK(refused_entry(with_line(91, "12 12 0 0 4096.01 0"), 2, 89));
    CHECK(refused_entry(with_line(91, "12 12 0 0 0 -999999999"), 3, 89));
    /* by list first, then by index */
    const struct text t = with_line(2, "1 0 0 0 5000 5000");
    CHECK(refused_entry(with(&t, 91, 92, "12 12 0 70000 0 0\n"), 1, 89));
    CHECK(refused_entry(with(&t, 91, 92, "12 12 0 0 5000 5000\n"), 2, 0));
}

/* As the C library reads it, which rounds to nearest too. */
static void test_numbers(void) {
    const char *const words[] = {"0",          "-0",          "-0.0",       "65536",
                                 "-65536.0",   "65536.001",   "65535.9999", "12345.6789",
                                 "0.1",        "-29351.8",    "0.00000001", "000000007",
                                 "1.00000006", "-9.87654321", "00004096.5"};
    for (size_t i = 0; i < sizeof words / sizeof *words; i++) {
        const struct text t = with_number(words[i]);
        const float number = strtof(words[i], NULL);
        struct reading r;
        CHECK_OF(ask_both(&t, &r) == NJERUMOY_ANSWER, words[i]);
        CHECK_OF(memcmp(&r.lists[0][35], &number, sizeof number) == 0, words[i]);
    }
}

static void test_epochs(void) {
    const struct {
        const char *header;
        int32_t year;
    } rows[] = {
        {"2025", 2025}, {"2030.0 WMM-2030", 2030}, {"\t-5.00", -5},
        {"0", 0},       {"999999999", 999999999},  {"-999999999 \r\r", -999999999},
    };
    for (size_t i = 0; i < sizeof rows / sizeof *rows; i++) {
        struct njerumoy_set set = NJERUMOY_WMM2025;
        set.epoch_year = rows[i].year;
        CHECK_OF(reads(with_line(1, rows[i].header), &set), rows[i].header);
    }
}

/* Each LF as CR LF. */
static struct text with_cr(const struct text *t) {
    struct text u = {0, {0}};
    for (size_t i = 0; i < t->length; i++) {
        if (t->bytes[i] == '\n') u.bytes[u.length++] = '\r';
        u.bytes[u.length++] = t->bytes[i];
    }
    return u;
}

static void test_lines(void) {
    struct text t = file_2025;
    CHECK(reads(with_cr(&t), &NJERUMOY_WMM2025));
    t.length--;
    CHECK(reads(t, &NJERUMOY_WMM2025));
    /* a CR before no LF is a byte of its line */
    t.bytes[t.length - 1] = '\r';
    CHECK(refused(t, NJERUMOY_MALFORMED, 93));
    t = first_lines(N + 1);
    CHECK(reads(t, &NJERUMOY_WMM2025));
    t.length--;
    CHECK(reads(t, &NJERUMOY_WMM2025));
    /* cut off behind the last number's point */
    t.length--;
    CHECK(refused(t, NJERUMOY_MALFORMED, N + 1));
    t = file_2025;
    for (size_t i = 0; i < t.length; i++) {
        if (t.bytes[i] == ' ') t.bytes[i] = '\t';
    }
    CHECK(reads(t, &NJERUMOY_WMM2025));
    CHECK(reads(with_line(92, " 9 99\t9 "), &NJERUMOY_WMM2025));
}

int main(int count, char **words) {
    if (count != 2) {
        fputs("usage: test_cof FOLDER\n", stderr);
        return 2;
    }
    file_2020 = read_file(words[1], "WMM2020.COF");
    file_2025 = read_file(words[1], "WMM2025.COF");
    test_published();
    test_lengths();
    test_malformed();
    test_out_of_order();
    test_first();
    test_coefficients();
    test_numbers();
    test_epochs();
    test_lines();
    return outcome();
}
