/* What the tests of the C headers share: checks that are counted, and what stands in a place before
 * a call. */
#ifndef NJERUMOY_CHECK_H
#define NJERUMOY_CHECK_H

#include <stdio.h>
#include <string.h>

#include "njerumoy_published.h"

#define N NJERUMOY_LIST_LENGTH
#define N_13 NJERUMOY_LIST_LENGTH_13
#define COUNT(a) (sizeof(a) / sizeof *(a))

static int checks, failures;

static void check(int holds, const char *file, int line, const char *what) {
    checks++;
    if (!holds) {
        failures++;
        printf("%s:%d: %s\n", file, line, what);
    }
}

/* In a loop, CHECK_OF says of which case it speaks. */
#define CHECK(x) check((x), __FILE__, __LINE__, #x)
#define CHECK_OF(x, which) check((x), __FILE__, __LINE__, which)

static const float HELD = 12345.5f;
static const size_t HELD_SIZE = 777;
static const int32_t HELD_YEAR = -77;

/* The program's exit status. */
static int outcome(void) {
    printf("%d checks, %d failures\n", checks, failures);
    return failures != 0;
}

#endif
