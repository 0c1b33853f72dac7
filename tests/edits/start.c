/* The part in C of the program that .ci/edits-run makes: it says which edit is tried and what is run, and hands the
 * calls of the tests in C on to the library. A test has a stack of its own, beside that of the library. */
#include "start.h"
#include <fcntl.h>
#include <pthread.h>
#include <stdlib.h>
#include <string.h>
#include <ucontext.h>
#include <unistd.h>

enum { OF_C = -1, MOST_WORDS = 16, STACK = 1 << 18 };

static ucontext_t library, tests;
static int64_t called, answer;
static Word slots[MOST_WORDS];

int64_t edit_number(void) { return atol(getenv("EDIT")); }

/* The test in C that is to be run; null where it is something else. */
static const Test *test_in_c(void) {
    const Test *test = tests_in_c;
    while (test->name && strcmp(test->name, getenv("EDIT_TESTS")) != 0) test++;
    return test->name ? test : NULL;
}

int64_t edit_tests(void) { return test_in_c() ? OF_C : atol(getenv("EDIT_TESTS")); }

static void run_test(void) { exit(test_in_c()->run(0, NULL)); }

/* The number of the function that a test calls next. */
int64_t edit_next(void) {
    static char stack[STACK];
    if (!tests.uc_stack.ss_sp) {
        getcontext(&tests);
        tests.uc_stack.ss_sp = stack;
        tests.uc_stack.ss_size = sizeof stack;
        makecontext(&tests, run_test, 0);
    }
    swapcontext(&library, &tests);
    return called;
}

Word edit_word(int32_t at) { return slots[at]; }

int32_t edit_int(int32_t at) { return (int32_t)slots[at]; }

/* A length: no slice is longer than half of what there are addresses for. */
Word edit_room(int32_t at) { return slots[at] < (Word)1 << 40 ? slots[at] : (Word)1 << 40; }

void *edit_place(int32_t at) {
    static Word nothing[MOST_WORDS];
    return slots[at] ? (void *)slots[at] : nothing;
}

void edit_give(int64_t it) { answer = it; }

int64_t ask(int64_t function, const Word *words, size_t count) {
    memcpy(slots, words, count * sizeof *words);
    called = function;
    swapcontext(&tests, &library);
    return answer;
}

/* What a test's threads do is done one after the other, each where it would begin. */
int edit_create(pthread_t *thread, const pthread_attr_t *attributes, void *(*run)(void *), void *word) {
    (void)attributes;
    *thread = (pthread_t)run(word);
    return 0;
}

int edit_join(pthread_t thread, void **result) {
    if (result) *result = (void *)thread;
    return 0;
}

/* Where nothing says what is to be run, the program copies itself to where it can be run. */
__attribute__((constructor)) static void start(int count, char **words) {
    static char part[1 << 16];
    ssize_t length;
    int from, to;
    (void)count;
    if (getenv("EDIT_TESTS")) return;
    from = open(words[0], O_RDONLY);
    to = open(program_path, O_WRONLY | O_CREAT, 0755);
    while ((length = read(from, part, sizeof part)) > 0)
        if (write(to, part, (size_t)length) != length) _exit(1);
    _exit(0);
}
