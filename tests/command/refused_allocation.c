// Refuses allocations of a program that it is loaded into before the C library: the one whose
// number, from 1, stands in REFUSED_ALLOCATION, or each that takes the bytes asked for so far
// past GRANTED_BYTES. Where neither is set, the number of all allocations and of their bytes are
// written to file descriptor 3 at the end.
typedef __SIZE_TYPE__ size_t;

void *__libc_malloc(size_t size);
void *__libc_calloc(size_t count, size_t size);
void *__libc_realloc(void *old, size_t size);
void *__libc_memalign(size_t alignment, size_t size);
char *getenv(const char *name);
long atol(const char *text);
int dprintf(int file, const char *format, ...);

static long allocations;
static size_t bytes;

static int is_refused(size_t size) {
    const char *number = getenv("REFUSED_ALLOCATION");
    const char *granted = getenv("GRANTED_BYTES");
    allocations += 1;
    if (number && allocations == atol(number)) return 1;
    if (granted && size > (size_t)atol(granted) - bytes) return 1;
    bytes += size;
    return 0;
}

void *malloc(size_t size) { return is_refused(size) ? 0 : __libc_malloc(size); }

void *calloc(size_t count, size_t size) {
    size_t all;
    if (__builtin_mul_overflow(count, size, &all)) return 0;
    return is_refused(all) ? 0 : __libc_calloc(count, size);
}

void *realloc(void *old, size_t size) { return is_refused(size) ? 0 : __libc_realloc(old, size); }

void *memalign(size_t alignment, size_t size) { return is_refused(size) ? 0 : __libc_memalign(alignment, size); }

void *aligned_alloc(size_t alignment, size_t size) { return memalign(alignment, size); }

int posix_memalign(void **place, size_t alignment, size_t size) {
    *place = memalign(alignment, size);
    return *place ? 0 : 12;
}

__attribute__((destructor)) static void tell(void) {
    if (!getenv("REFUSED_ALLOCATION") && !getenv("GRANTED_BYTES")) dprintf(3, "%ld %zu\n", allocations, bytes);
}
