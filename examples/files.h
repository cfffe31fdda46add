/* Whole files, for ./wmm. */
#ifndef NJERUMOY_FILES_H
#define NJERUMOY_FILES_H

#include <stddef.h>
#include <stdint.h>

/* A file's bytes, whatever their number, to be freed. NULL where it cannot be read, after it has said
 * why on standard error. */
uint8_t *read_file(const char *path, size_t *length);

/* 1 where the file holds the bytes and no other; else 0, after it has said why on standard error. */
int write_file(const char *path, const uint8_t *bytes, size_t length);

#endif
