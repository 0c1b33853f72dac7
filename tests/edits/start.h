/* What .ci/edits-run writes in C over start.c: the tests, and the calls of the library. */
#ifndef START_H
#define START_H
#include <stddef.h>
#include <stdint.h>

typedef uint64_t Word;

typedef struct {
    const char *name;
    int (*run)(int count, char **words);
} Test;

/* The tests in C; the last one has no name. */
extern const Test tests_in_c[];

/* Where the program is to be. */
extern const char program_path[];

/* Calls a function of the library by its number. */
int64_t ask(int64_t function, const Word *words, size_t count);
#endif
