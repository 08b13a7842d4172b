// An allocator to be preloaded, which refuses one request for memory: the one whose number is in the
// environment's FAIL_AT, counted from 1; or each from the one in FAIL_FROM on. Where COUNT_IN names
// a file, it keeps the number of requests there, as a 64-bit number of the machine.
//
//   cc -shared -fPIC -o fail_alloc.so fail_alloc.c -ldl
//   FAIL_AT=3 LD_PRELOAD=./fail_alloc.so bin/pct run examples/stale_read.pct --order A,B
#define _GNU_SOURCE
#include <dlfcn.h>
#include <errno.h>
#include <fcntl.h>
#include <stdatomic.h>
#include <stdlib.h>
#include <sys/mman.h>
#include <unistd.h>

static atomic_long own_count;
static atomic_long *requests = &own_count;
static long refused, refused_from;

// A program with threads may end without its exit handlers, so the number lies in the file from the start.
static atomic_long *count_in(const char *name) {
    int file = open(name, O_RDWR | O_CREAT | O_TRUNC, 0600);
    if (file < 0 || ftruncate(file, sizeof(atomic_long)) != 0) return &own_count;
    void *shared = mmap(NULL, sizeof(atomic_long), PROT_READ | PROT_WRITE, MAP_SHARED, file, 0);
    close(file);
    return shared == MAP_FAILED ? &own_count : shared;
}

__attribute__((constructor)) static void begin(void) {
    const char *number = getenv("FAIL_AT");
    const char *from = getenv("FAIL_FROM");
    const char *name = getenv("COUNT_IN");
    if (name) requests = count_in(name);
    // The requests before the program's own code, as of the C library's start, don't count.
    atomic_store(requests, 0);
    refused = number ? atol(number) : 0;
    refused_from = from ? atol(from) : 0;
}

static int is_refused(void) {
    long request = atomic_fetch_add(requests, 1) + 1;
    if (request != refused && (!refused_from || request < refused_from)) return 0;
    errno = ENOMEM;
    return 1;
}

// The C library's function of this name.
#define REAL(name)                                   \
    static __typeof__(&name) real;                   \
    if (!real) real = (__typeof__(&name))dlsym(RTLD_NEXT, #name)

void *malloc(size_t size) {
    REAL(malloc);
    return is_refused() ? NULL : real(size);
}

void *calloc(size_t count, size_t size) {
    REAL(calloc);
    return is_refused() ? NULL : real(count, size);
}

void *realloc(void *block, size_t size) {
    REAL(realloc);
    return is_refused() ? NULL : real(block, size);
}

void *aligned_alloc(size_t alignment, size_t size) {
    REAL(aligned_alloc);
    return is_refused() ? NULL : real(alignment, size);
}

int posix_memalign(void **block, size_t alignment, size_t size) {
    REAL(posix_memalign);
    return is_refused() ? ENOMEM : real(block, alignment, size);
}
