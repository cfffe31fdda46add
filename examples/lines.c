#include "lines.h"

#include <stdio.h>
#include <string.h>

/* So much of a line is shown. */
enum { SHOWN_BYTES = 60 };

struct bytes line_of(struct bytes text, size_t line) {
    const uint8_t *const end = text.at + text.length;
    const uint8_t *at = text.at, *lf;
    for (;; line--) {
        lf = memchr(at, '\n', (size_t)(end - at));
        if (line == 1 || lf == NULL) break;
        at = lf + 1;
    }
    if (line > 1) at = end;
    struct bytes found = {at, (size_t)((lf == NULL ? end : lf) - at)};
    if (lf != NULL && found.length > 0 && lf[-1] == '\r') found.length--;
    return found;
}

int is_end(struct bytes text, struct bytes line) { return line.at == text.at + text.length; }

static int is_blank(uint8_t byte) { return byte == ' ' || byte == '\t'; }

struct bytes next_word(struct bytes *line) {
    const uint8_t *const end = line->at + line->length;
    const uint8_t *from = line->at, *to;
    while (from < end && is_blank(*from)) from++;
    for (to = from; to < end && !is_blank(*to); to++) {
    }
    const struct bytes word = {from, (size_t)(to - from)};
    *line = (struct bytes){to, (size_t)(end - to)};
    return word;
}

void show(struct bytes bytes) {
    for (size_t i = 0; i < bytes.length && i < SHOWN_BYTES; i++) {
        const uint8_t byte = bytes.at[i];
        putchar(' ' <= byte && byte <= '~' ? byte : '?');
    }
}
