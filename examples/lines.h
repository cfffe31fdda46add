/* Lines and words of a text that was read whole, for ./wmm. */
#ifndef NJERUMOY_LINES_H
#define NJERUMOY_LINES_H

#include <stddef.h>
#include <stdint.h>

struct bytes {
    const uint8_t *at;
    size_t length;
};

/* A line without its end, LF or CR LF; the first is line 1. Behind the last one every line is empty,
 * at the text's end. */
struct bytes line_of(struct bytes text, size_t line);

/* Whether that is behind the last line. */
int is_end(struct bytes text, struct bytes line);

/* Takes the first word off a line; words stand between spaces and tabs. Empty where there is none. */
struct bytes next_word(struct bytes *line);

/* Prints the first bytes of a line, and a question mark for each that is no printable character. */
void show(struct bytes bytes);

#endif
