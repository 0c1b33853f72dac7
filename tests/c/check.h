/* Counts what is checked: a line for each that fails, and the counts at the end, which are the exit
 * status. */
#ifndef CHECK_H
#define CHECK_H
#include <stdio.h>

static unsigned long passed, failed;

static void check(int holds, const char *what, const char *file, int line) {
    if (holds) {
        passed++;
    } else {
        failed++;
        printf("%s:%d: not %s\n", file, line, what);
    }
}

#define CHECK(what) check((what) ? 1 : 0, #what, __FILE__, __LINE__)

static int counts(void) {
    printf("%lu passed, %lu failed\n", passed, failed);
    return failed ? 1 : 0;
}
#endif
