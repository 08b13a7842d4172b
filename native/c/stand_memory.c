/*
 * Freed memory. A block is kept from use, so that an access to it is seen and told with the place
 * where it was freed: up to QUARANTINE bytes, the oldest first. With --reuse blocks are given again
 * at once.
 */
#include "stand.h"

#include <errno.h>
#include <malloc.h>
#include <stdlib.h>
#include <string.h>

#define QUARANTINE (256U << 20)
#define MOST_MARKED 65536U /* bytes of a block that are looked after */
#define MOST_KEPT 262144U  /* blocks; a power of two */

/* libc's own: dlsym calls free. */
extern void __libc_free(void *block);
extern void *__libc_malloc(size_t size);

typedef struct Kept {
    void *block;
    size_t size;
} Kept;
static Kept *kept;
static size_t kept_bytes, kept_first, kept_next;

static size_t marked_of(size_t size) {
    return size < MOST_MARKED ? size & ~(size_t)7 : MOST_MARKED;
}

static void let_oldest_go(void) {
    Kept *oldest = &kept[kept_first++ % MOST_KEPT];
    kept_bytes -= oldest->size;
    forget_memory((uintptr_t)oldest->block, marked_of(oldest->size));
    __libc_free(oldest->block);
}

static bool keep(void *block, size_t size) {
    if (!kept) kept = __libc_malloc(MOST_KEPT * sizeof *kept);
    if (!kept || size > QUARANTINE) return false;
    while (kept_first < kept_next &&
           (kept_bytes + size > QUARANTINE || kept_next - kept_first == MOST_KEPT))
        let_oldest_go();
    kept[kept_next++ % MOST_KEPT] = (Kept){ block, size };
    kept_bytes += size;
    return true;
}

/* Freeing is a write of the whole block: an access that nothing orders with it races. */
static void free_tested(void *block, uintptr_t pc) {
    size_t size = malloc_usable_size(block), marked = marked_of(size);
    if (shared->plan.plain == PLAIN_OFF) {
        __libc_free(block);
        return;
    }
    if (seat_count() > 1 || is_freed((uintptr_t)block))
        touch((uintptr_t)block, marked, ACCESS_WRITE, pc);
    if (shared->plan.is_reusing || !keep(block, size)) {
        forget_memory((uintptr_t)block, marked);
        __libc_free(block);
        return;
    }
    mark_freed((uintptr_t)block, marked, pc);
}

EXPORT void free(void *block) {
    if (!block) return;
    if (!is_tested()) __libc_free(block);
    else free_tested(block, (uintptr_t)__builtin_return_address(0));
}

/* C++'s operators delete, which are libstdc++'s calls of free: so the place is that of the delete. A program that
   has its own goes before these. */
#define DELETE(name, ...)                                                                          \
    EXPORT void name(void *block __VA_OPT__(, ) __VA_ARGS__) {                                     \
        if (!block) return;                                                                        \
        if (!is_tested()) __libc_free(block);                                                      \
        else free_tested(block, (uintptr_t)__builtin_return_address(0));                           \
    }
DELETE(_ZdlPv)
DELETE(_ZdaPv)
DELETE(_ZdlPvm, size_t size __attribute__((unused)))
DELETE(_ZdaPvm, size_t size __attribute__((unused)))
DELETE(_ZdlPvSt11align_val_t, size_t alignment __attribute__((unused)))
DELETE(_ZdaPvSt11align_val_t, size_t alignment __attribute__((unused)))
DELETE(_ZdlPvmSt11align_val_t, size_t size __attribute__((unused)),
       size_t alignment __attribute__((unused)))
DELETE(_ZdaPvmSt11align_val_t, size_t size __attribute__((unused)),
       size_t alignment __attribute__((unused)))

EXPORT void *realloc(void *block, size_t size) {
    static void *(*real)(void *, size_t);
    if (!block) return malloc(size);
    if (!is_tested()) {
        if (!real) real = (void *(*)(void *, size_t))dlsym(RTLD_NEXT, "realloc");
        return real(block, size);
    }
    if (!size) {
        free(block);
        return NULL;
    }
    void *larger = malloc(size);
    if (!larger) return NULL;
    size_t old = malloc_usable_size(block);
    memcpy(larger, block, old < size ? old : size);
    free_tested(block, (uintptr_t)__builtin_return_address(0));
    return larger;
}
