// Fails a close of a program that it is loaded into before the C library: a call of close on standard
// output closes it, and fails with EDQUOT, as where a file system finds only then that there is no
// room. The programs that this one starts are left alone.
int *__errno_location(void);
int unsetenv(const char *name);
long syscall(long number, ...);

static const int QUOTA_EXCEEDED = 122;
static const long CLOSE = 3;

__attribute__((constructor)) static void begin(void) { unsetenv("LD_PRELOAD"); }

int close(int file) {
    int closed = (int)syscall(CLOSE, file);
    if (file != 1) return closed;
    *__errno_location() = QUOTA_EXCEEDED;
    return -1;
}
