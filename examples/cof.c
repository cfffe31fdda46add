/* Hands the bytes of a coefficient file to the library. A refused file is explained: which line, what
 * should stand there, and what stands there. */
#include "cof.h"

#include <stdio.h>
#include <stdlib.h>

#include "files.h"
#include "lines.h"

/* Line 1 is the header; the next 90 are the coefficients'. */
enum { FIRST_LINE = 2, LAST_LINE = FIRST_LINE + NJERUMOY_LIST_LENGTH - 1 };

/* A line's word, counted from 0. */
static struct bytes word_of(struct bytes line, size_t word) {
    struct bytes found = next_word(&line);
    for (; word > 0; word--) found = next_word(&line);
    return found;
}

/* The degree and order of a coefficient's line. */
static void show_place(size_t line) {
    size_t degree = 1, order = line - FIRST_LINE;
    while (order > degree) {
        degree++;
        order -= degree;
    }
    printf("degree %zu, order %zu", degree, order);
}

void show_cap(const size_t entry[2]) {
    static const char *const LISTS[] = {"g", "h", "g_dot", "h_dot"};
    printf("for %s of ", LISTS[entry[0]]);
    show_place(FIRST_LINE + entry[1]);
    printf(": at most %s is accepted, plus or minus", entry[0] < 2 ? "65536 nT" : "4096 nT a year");
}

static void show_over_cap(struct bytes line, const size_t entry[2]) {
    printf("has ");
    show(word_of(line, 2 + entry[0]));
    putchar(' ');
    show_cap(entry);
}

static void show_malformed(size_t line) {
    if (line < FIRST_LINE) {
        printf("does not begin with the epoch, a whole year such as 2025.0");
    } else if (line <= LAST_LINE) {
        printf("is not a line of the agency's file: "
               "degree, order and four numbers of at most nine digits");
    } else {
        printf("is not a line of nines, and nothing else may follow the coefficients");
    }
}

static void show_out_of_order(size_t line) {
    printf("should have been ");
    if (line < FIRST_LINE) {
        printf("the epoch, a whole year such as 2025.0");
    } else {
        show_place(line);
    }
}

/* The refusal in words, and below it the line as it stands in the file. */
static void explain(uint32_t refusal, struct bytes text, const size_t entry[2], size_t line) {
    const struct bytes found = line_of(text, line);
    printf("refusal %u: line %zu ", (unsigned)refusal, line);
    if (refusal == NJERUMOY_COEFFICIENT) {
        show_over_cap(found, entry);
    } else if (refusal == NJERUMOY_MALFORMED) {
        show_malformed(line);
    } else {
        show_out_of_order(line);
    }
    putchar('\n');
    if (is_end(text, found)) {
        printf("(the file ends before that line)");
    } else {
        show(found);
    }
    putchar('\n');
}

int read_cof_file(const char *path, struct njerumoy_owned_set *set) {
    size_t length, entry[2], line;
    uint8_t *const bytes = read_file(path, &length);
    if (bytes == NULL) return 2;

    const struct bytes text = {bytes, length};
    const uint32_t refusal = njerumoy_read_cof_into(set, bytes, length, entry, &line);
    if (refusal == NJERUMOY_COEFFICIENT) line = FIRST_LINE + entry[1];
    if (refusal != NJERUMOY_ANSWER) explain(refusal, text, entry, line);
    free(bytes);
    return refusal != NJERUMOY_ANSWER;
}
