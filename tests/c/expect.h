// What a C test holds, counted.
#ifndef EXPECT_H
#define EXPECT_H

#include <stdio.h>

static int passed, failed;

static void expect(const char *what, int holds) {
    if (holds) {
        passed++;
    } else {
        failed++;
        printf("not so: %s\n", what);
    }
}

#endif
