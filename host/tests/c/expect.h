/* How a program says what isn't as it should be: each fault on a line of its own, and `wrong` is 1 from then on. */
#ifndef EXPECT_H
#define EXPECT_H

#include <stdbool.h>
#include <stdio.h>

static int wrong = 0;

static void expect(bool holds, const char *what)
{
    if (!holds) {
        fprintf(stderr, "wrong: %s\n", what);
        wrong = 1;
    }
}

#endif
