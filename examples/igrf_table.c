/* Reads a table of the agency's IGRF layout. A table that is not as it should be is explained: which
 * line, what should stand there, and what stands there. */
#include "igrf_table.h"

#include <stdio.h>
#include <stdlib.h>
#include <string.h>

#include "files.h"
#include "lines.h"

/* From here on a set is read with its rates and no other set beside it. */
enum { FORECAST = 2025, BETWEEN_SETS = 5 };

/* A number has at most nine digits, as in a coefficient file: of so many the C library is to give the
 * nearest float. */
enum { DIGITS_MAX = 9, NUMBER_MAX = DIGITS_MAX + 2 };

/* What is read of a table, in the order of the library's lists: two of each, g and h. */
enum { MAIN, RATES, SECOND, PARTS };

struct table {
    const char *path;
    struct bytes text;
    size_t line; /* the number of the line at hand; 0 before the first */
};

/* How many columns there are, and which one has each part; NONE where the day does not ask for it. */
static const size_t NONE = SIZE_MAX;
struct columns {
    size_t count, of[PARTS];
};

/* What a row is of: the list, 0 for g and 1 for h, degree and order. */
struct row {
    size_t list, degree, order;
};

static int is(struct bytes word, const char *expected) {
    return word.length == strlen(expected) && memcmp(word.at, expected, word.length) == 0;
}

/* ---- what is said of a line */

static void begin(const struct table *t) { printf("%s: line %zu ", t->path, t->line); }

/* Below the words the line as it stands in the file. 0, as all that ends here did not go well. */
static int end(const struct table *t) {
    const struct bytes line = line_of(t->text, t->line);
    putchar('\n');
    if (is_end(t->text, line)) {
        printf("(the file ends before that line)");
    } else {
        show(line);
    }
    putchar('\n');
    return 0;
}

static int refuse(const struct table *t, const char *why) {
    begin(t);
    fputs(why, stdout);
    return end(t);
}

static int refuse_order(const struct table *t, const struct row *due) {
    begin(t);
    printf("should have been %c %zu %zu", "gh"[due->list], due->degree, due->order);
    return end(t);
}

static int refuse_number(const struct table *t, struct bytes word) {
    begin(t);
    printf("has ");
    show(word);
    printf(", which is not a number of at most %d digits", DIGITS_MAX);
    return end(t);
}

/* ---- lines and numbers */

/* Goes to the next line that says something. 0 where there is none. */
static int next_line(struct table *t, struct bytes *line) {
    struct bytes rest, word;
    do {
        t->line++;
        *line = rest = line_of(t->text, t->line);
        if (is_end(t->text, rest)) return 0;
        word = next_word(&rest);
    } while (word.length == 0 || word.at[0] == '#');
    return 1;
}

static size_t digits(const char *at) { return strspn(at, "0123456789"); }

/* The words that strtof takes and a table has not, such as nan, inf, 0x1 and 1e3, are sorted out
 * before it sees them. */
static int read_number(struct bytes word, float *number) {
    char text[NUMBER_MAX + 1] = {0};
    if (word.length > NUMBER_MAX) return 0;
    memcpy(text, word.at, word.length);

    const char *at = text + (text[0] == '-');
    const size_t whole = digits(at);
    size_t behind = 0;
    at += whole;
    if (*at == '.') {
        behind = digits(++at);
        at += behind;
        if (behind == 0) return 0;
    }
    if (whole == 0 || whole + behind > DIGITS_MAX || at != text + word.length) return 0;
    *number = strtof(text, NULL);
    return 1;
}

/* ---- the head */

static void name_column(char name[32], int part, const struct igrf_sets *sets) {
    const int first = (int)sets->first.epoch_year, second = (int)sets->second.epoch_year;
    if (part == RATES) {
        snprintf(name, 32, "%d-%02d", first, second % 100);
    } else {
        snprintf(name, 32, "%d.0", part == MAIN ? first : second);
    }
}

/* Two columns of one name are refused: which of them is meant, nobody knows. */
static int find_column(const struct table *t, struct bytes names, const char *name, size_t *found) {
    size_t at = 0;
    *found = NONE;
    for (struct bytes word; (word = next_word(&names)).length > 0; at++) {
        if (!is(word, name)) continue;
        if (*found != NONE) {
            begin(t);
            printf("has two columns %s", name);
            return end(t);
        }
        *found = at;
    }
    return 1;
}

static int find_columns(const struct table *t, struct bytes names, int32_t year,
                        const struct igrf_sets *sets, struct columns *columns) {
    const int other = has_rates(sets) ? RATES : SECOND;
    char name[32];
    for (int part = 0; part < PARTS; part++) {
        columns->of[part] = NONE;
        if (part != MAIN && part != other) continue;
        name_column(name, part, sets);
        if (!find_column(t, names, name, &columns->of[part])) return 0;
        if (columns->of[part] != NONE) continue;
        printf("%s: the table has no column %s, which a day of %d needs\n", t->path, name, (int)year);
        return 0;
    }
    columns->count = 0;
    while (next_word(&names).length > 0) columns->count++;
    return 1;
}

/* Leaves the names of the columns. */
static int read_head(struct table *t, struct bytes *names) {
    struct bytes line, first;
    int there = next_line(t, &line);
    first = line;
    if (there && is(next_word(&first), "c/s")) there = next_line(t, &line);
    *names = line;
    if (there && is(next_word(names), "g/h") && is(next_word(names), "n") &&
        is(next_word(names), "m")) {
        return 1;
    }
    return refuse(t, "should have been g/h n m and a name for each column, such as 2000.0");
}

/* ---- the rows */

static int is_whole(struct bytes word, size_t expected) {
    char text[24];
    snprintf(text, sizeof text, "%zu", expected);
    return is(word, text);
}

static int is_row(struct bytes *line, const struct row *due) {
    return is(next_word(line), due->list == 0 ? "g" : "h") &&
           is_whole(next_word(line), due->degree) && is_whole(next_word(line), due->order);
}

/* Where the number of a list stands. */
static float *room_of(struct igrf_sets *sets, int part, const struct row *row) {
    struct njerumoy_owned_set_13 *const first = &sets->first, *const second = &sets->second;
    float *const lists[2 * PARTS] = {first->g,     first->h,  first->g_dot,
                                     first->h_dot, second->g, second->h};
    return &lists[2 * part + row->list][row->degree * (row->degree + 1) / 2 + row->order - 1];
}

static int read_row(const struct table *t, struct bytes line, const struct columns *columns,
                    const struct row *due, struct igrf_sets *sets) {
    float number;
    if (!is_row(&line, due)) return refuse_order(t, due);
    for (size_t column = 0; column < columns->count; column++) {
        const struct bytes word = next_word(&line);
        if (word.length == 0) return refuse(t, "has fewer numbers than there are columns");
        if (!read_number(word, &number)) return refuse_number(t, word);
        for (int part = 0; part < PARTS; part++) {
            if (columns->of[part] == column) *room_of(sets, part, due) = number;
        }
    }
    return next_word(&line).length == 0 || refuse(t, "has more numbers than there are columns");
}

/* The row behind this one: g, then h where the order has one. */
static struct row row_after(struct row row) {
    if (row.list == 0 && row.order > 0) return (struct row){1, row.degree, row.order};
    if (row.order < row.degree) return (struct row){0, row.degree, row.order + 1};
    return (struct row){0, row.degree + 1, 0};
}

/* A table ends with a degree: the twelfth or the thirteenth. */
static int read_rows(struct table *t, const struct columns *columns, struct igrf_sets *sets) {
    struct row due = {0, 1, 0};
    struct bytes line;
    for (; next_line(t, &line); due = row_after(due)) {
        if (due.degree > 13) return refuse(t, "follows h 13 13, and nothing else may");
        if (!read_row(t, line, columns, &due, sets)) return 0;
    }
    sets->length = due.degree > 13 ? NJERUMOY_LIST_LENGTH_13 : NJERUMOY_LIST_LENGTH;
    return due.degree > 13 || (due.degree == 13 && due.order == 0) || refuse_order(t, &due);
}

int has_rates(const struct igrf_sets *sets) { return sets->first.epoch_year >= FORECAST; }

int read_igrf_table(const char *path, int32_t year, struct igrf_sets *sets) {
    size_t length;
    uint8_t *const bytes = read_file(path, &length);
    if (bytes == NULL) return 2;

    struct table t = {path, {bytes, length}, 0};
    struct bytes names;
    struct columns columns;
    memset(sets, 0, sizeof *sets);
    sets->first.epoch_year = year / BETWEEN_SETS * BETWEEN_SETS;
    sets->second.epoch_year = sets->first.epoch_year + BETWEEN_SETS;
    const int whole = read_head(&t, &names) && find_columns(&t, names, year, sets, &columns) &&
                      read_rows(&t, &columns, sets);
    free(bytes);
    return !whole;
}

struct njerumoy_set lent_of_table(const struct igrf_sets *sets,
                                  const struct njerumoy_owned_set_13 *set) {
    struct njerumoy_set lent = njerumoy_lent_13(set);
    lent.g_length = lent.h_length = lent.g_dot_length = lent.h_dot_length = sets->length;
    return lent;
}
