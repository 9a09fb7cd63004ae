/* What the C tests share: what does not hold is printed and counted. TEST, the test's name, is defined before this is included. */
#ifndef EXPECT_H
#define EXPECT_H

#include <stdio.h>

static int failures = 0;

static void expect(int holds, const char *what) {
    if (!holds) {
        printf(TEST ": not so: %s\n", what);
        failures++;
    }
}

/* A text as a pointer and a length. */
#define BYTES(s) (const uint8_t *)(s), sizeof(s) - 1

#endif
