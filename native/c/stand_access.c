/*
 * What the compiler puts before each access of plain memory, and at the begin and end of each
 * function. An access is no step: it is looked at for races. With --plain steps and racy, at the
 * places that earlier runs found, it is a step, too.
 */
#include "stand_shadow.h"

#include <string.h>

static bool has_others; /* whether there ever was a second thread: before, nothing races */

static uint64_t value_at(uintptr_t at, size_t size) {
    uint64_t value = 0;
    memcpy(&value, (const void *)at, size > 8 ? 8 : size);
    return value;
}

static void step_at(uintptr_t at, size_t size, bool is_write, uintptr_t pc) {
    self.pc = pc;
    step(is_write ? "plain write" : "plain read", (const void *)at);
    if (is_write) {
        changed();
        return;
    }
    uint64_t value = value_at(at, size);
    note_value(value);
    looked(value, 3);
}

static __attribute__((noinline)) void look_at(uintptr_t at, size_t size, unsigned kind,
                                              uintptr_t pc) {
    if (shared->plan.plain == PLAIN_OFF) return;
    shared->plain_accesses++;
    if (!has_others) {
        has_others = seat_count() > 1;
        if (!has_others && !is_freed(at)) return;
    }
    if (shared->plan.plain >= PLAIN_STEPS && shared->plan.is_frozen && is_learned(pc))
        step_at(at, size, kind & ACCESS_WRITE, pc);
    else if (self.budget <= 0) count_access();
    touch(at, size, kind, pc);
}

static inline void access_memory(uintptr_t at, size_t size, unsigned kind, uintptr_t pc) {
    if (!is_tested()) return;
    if (LIKELY(--self.budget > 0 && size <= 8 && is_seen(at, (uint32_t)size, kind))) return;
    look_at(at, size, kind, pc);
}

#define PC ((uintptr_t)__builtin_return_address(0))
#define ACCESSES(size)                                            \
    EXPORT void __tsan_read##size(void *at) {                     \
        access_memory((uintptr_t)at, size, ACCESS_READ, PC);      \
    }                                                             \
    EXPORT void __tsan_write##size(void *at) {                    \
        access_memory((uintptr_t)at, size, ACCESS_WRITE, PC);     \
    }                                                             \
    EXPORT void __tsan_unaligned_read##size(void *at) {           \
        access_memory((uintptr_t)at, size, ACCESS_READ, PC);      \
    }                                                             \
    EXPORT void __tsan_unaligned_write##size(void *at) {          \
        access_memory((uintptr_t)at, size, ACCESS_WRITE, PC);     \
    }                                                             \
    EXPORT void __tsan_volatile_read##size(void *at) {            \
        access_memory((uintptr_t)at, size, ACCESS_READ, PC);      \
    }                                                             \
    EXPORT void __tsan_volatile_write##size(void *at) {           \
        access_memory((uintptr_t)at, size, ACCESS_WRITE, PC);     \
    }                                                             \
    EXPORT void __tsan_unaligned_volatile_read##size(void *at) {  \
        access_memory((uintptr_t)at, size, ACCESS_READ, PC);      \
    }                                                             \
    EXPORT void __tsan_unaligned_volatile_write##size(void *at) { \
        access_memory((uintptr_t)at, size, ACCESS_WRITE, PC);     \
    }                                                             \
    EXPORT void __tsan_read_write##size(void *at) {               \
        access_memory((uintptr_t)at, size, ACCESS_WRITE, PC);     \
    }                                                             \
    EXPORT void __tsan_unaligned_read_write##size(void *at) {     \
        access_memory((uintptr_t)at, size, ACCESS_WRITE, PC);     \
    }
ACCESSES(1)
ACCESSES(2)
ACCESSES(4)
ACCESSES(8)
ACCESSES(16)

EXPORT void __tsan_read_range(void *at, unsigned long size) {
    access_memory((uintptr_t)at, size, ACCESS_READ, PC);
}
EXPORT void __tsan_write_range(void *at, unsigned long size) {
    access_memory((uintptr_t)at, size, ACCESS_WRITE, PC);
}

/* An object's table of virtual functions: its constructor and destructor write it, often the same
 * again. */
EXPORT void __tsan_vptr_update(void **at, void *value) {
    if (*at != value) access_memory((uintptr_t)at, sizeof *at, ACCESS_WRITE, PC);
}
EXPORT void __tsan_vptr_read(void **at) {
    access_memory((uintptr_t)at, sizeof *at, ACCESS_READ, PC);
}

EXPORT void __tsan_init(void) {}
EXPORT void __tsan_ignore_thread_begin(void) {}
EXPORT void __tsan_ignore_thread_end(void) {}
EXPORT void __tsan_func_entry(void *pc) { self.calls[self.depth++ % MOST_CALLS] = (uintptr_t)pc; }
EXPORT void __tsan_func_exit(void) {
    if (self.depth) self.depth--;
}

/* gcc calls libc's; clang instruments memset and the like by these. */
EXPORT void *__tsan_memset(void *to, int byte, size_t size) {
    access_memory((uintptr_t)to, size, ACCESS_WRITE, PC);
    return memset(to, byte, size);
}
EXPORT void *__tsan_memcpy(void *to, const void *from, size_t size) {
    access_memory((uintptr_t)from, size, ACCESS_READ, PC);
    access_memory((uintptr_t)to, size, ACCESS_WRITE, PC);
    return memcpy(to, from, size);
}
EXPORT void *__tsan_memmove(void *to, const void *from, size_t size) {
    access_memory((uintptr_t)from, size, ACCESS_READ, PC);
    access_memory((uintptr_t)to, size, ACCESS_WRITE, PC);
    return memmove(to, from, size);
}
