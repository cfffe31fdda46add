#include "files.h"

#include <errno.h>
#include <stdio.h>
#include <stdlib.h>
#include <string.h>

static void say_why(const char *path) { fprintf(stderr, "wmm: %s: %s\n", path, strerror(errno)); }

/* NULL, with errno, where it cannot be read. */
static uint8_t *read_all(FILE *file, size_t *length) {
    uint8_t *bytes = NULL;
    size_t room = 0, got = 0;
    *length = 0;
    do {
        *length += got;
        if (*length == room) {
            room = room == 0 ? 16384 : 2 * room;
            uint8_t *const larger = realloc(bytes, room);
            if (larger == NULL) {
                free(bytes);
                return NULL;
            }
            bytes = larger;
        }
        got = fread(bytes + *length, 1, room - *length, file);
    } while (got > 0);
    if (!ferror(file)) return bytes;
    free(bytes);
    return NULL;
}

uint8_t *read_file(const char *path, size_t *length) {
    FILE *const file = fopen(path, "rb");
    uint8_t *const bytes = file == NULL ? NULL : read_all(file, length);
    if (bytes == NULL) say_why(path);
    if (file != NULL) fclose(file);
    return bytes;
}

/* A full disk can show only when the file is closed. */
int write_file(const char *path, const uint8_t *bytes, size_t length) {
    FILE *const file = fopen(path, "wb");
    int whole = file != NULL && fwrite(bytes, 1, length, file) == length;
    if (file != NULL && fclose(file) != 0) whole = 0;
    if (!whole) say_why(path);
    return whole;
}
