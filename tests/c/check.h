/* One line a check, and the count at the end. */
#ifndef CHECK_H
#define CHECK_H

#include <stdio.h>

static unsigned passed, failed;

static inline void check(int right, const char *what)
{
    printf("%s: %s\n", right ? "ok" : "FAILED", what);
    if (right)
        passed++;
    else
        failed++;
}

static inline int checked(void)
{
    printf("%u passed, %u failed\n", passed, failed);
    return failed != 0;
}

#endif
