// Interrupts calls of a program that it is loaded into before the C library: every other call of read
// and of write, from the first on, fails as one that a signal ended before a byte was moved. The
// number of these, and that of calls of open, are written to file descriptor 3 at the end.
typedef __SIZE_TYPE__ size_t;
typedef __PTRDIFF_TYPE__ ssize_t;

int *__errno_location(void);
int dprintf(int file, const char *format, ...);
long syscall(long number, ...);

static const int INTERRUPTED = 4;
static const long READ = 0, WRITE = 1, OPEN = 2;
static long calls, interrupted, opened;

static int is_interrupted(void) {
    calls += 1;
    if (calls % 2 == 0) return 0;
    interrupted += 1;
    *__errno_location() = INTERRUPTED;
    return 1;
}

ssize_t read(int file, void *bytes, size_t count) { return is_interrupted() ? -1 : syscall(READ, file, bytes, count); }

ssize_t write(int file, const void *bytes, size_t count) {
    return is_interrupted() ? -1 : syscall(WRITE, file, bytes, count);
}

int open(const char *path, int flags, ...) {
    opened += 1;
    return (int)syscall(OPEN, path, flags, 0);
}

__attribute__((destructor)) static void report(void) { dprintf(3, "%ld %ld\n", interrupted, opened); }
