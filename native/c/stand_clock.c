/*
 * Happens-before, by vector clocks, as C++ has it: what a release store writes, and the exchanges
 * that go on from it, is acquired by a load that reads it; a relaxed atomic does so with a fence
 * before or after it. A load reads the last store: values of weak memory aren't made.
 */
#include "stand.h"

#include <string.h>
#include <sys/mman.h>

#define SLOTS (1U << 17) /* a power of two */
#define MOST_CLOCKS (SLOTS / 2)

/* The clock at an address. They stand densely, in the order in which the run met the addresses. */
typedef struct Sync {
    uintptr_t at;
    Clock clock;
} Sync;
static uint32_t *slots; /* one more than a number of a Sync, or 0 */
static Sync *syncs;
static uint32_t sync_count;
static Clock sequential; /* of fences that are sequentially consistent */

static void *reserve(size_t bytes) {
    void *at = mmap(NULL, bytes, PROT_READ | PROT_WRITE,
                    MAP_PRIVATE | MAP_ANONYMOUS | MAP_NORESERVE, -1, 0);
    if (at == MAP_FAILED)
        end_run(REFUSED, "no memory for %zu bytes of the runtime's tables", bytes);
    return at;
}

void begin_clocks(void) {
    slots = reserve(SLOTS * sizeof *slots);
    syncs = reserve(MOST_CLOCKS * sizeof *syncs);
    for (uint32_t t = 0; t < MOST_SEATS; t++) seats[t].clock.at[t] = 1;
}

static Sync *sync_at(const volatile void *at, bool is_made) {
    uintptr_t address = (uintptr_t)at;
    uint32_t slot = (uint32_t)((address >> 2) * 2654435761U) % SLOTS;
    for (; slots[slot]; slot = (slot + 1) % SLOTS)
        if (syncs[slots[slot] - 1].at == address) return &syncs[slots[slot] - 1];
    if (!is_made) return NULL;
    if (sync_count == MOST_CLOCKS) end_run(REFUSED, "more than %u atomics and locks", MOST_CLOCKS);
    slots[slot] = ++sync_count;
    syncs[sync_count - 1].at = address;
    return &syncs[sync_count - 1];
}

void join_clock(Clock *to, const Clock *from) {
    for (uint32_t t = 0; t < seat_count(); t++)
        if (from->at[t] > to->at[t]) to->at[t] = from->at[t];
}

void next_epoch(void) { self.epoch = ++mine()->clock.at[self.seat]; }

void acquire(const volatile void *at) {
    Sync *sync = sync_at(at, false);
    if (sync) join_clock(&mine()->clock, &sync->clock);
}

void release(const volatile void *at) {
    join_clock(&sync_at(at, true)->clock, &mine()->clock);
    next_epoch();
}

void load_clock(const volatile void *at, int order) {
    Sync *sync = sync_at(at, false);
    if (!sync) return;
    bool is_acquiring = order != __ATOMIC_RELAXED && order != __ATOMIC_RELEASE;
    join_clock(is_acquiring ? &mine()->clock : &mine()->acquired, &sync->clock);
}

/* A store that is no exchange ends what another thread has released there. */
void store_clock(const volatile void *at, int order, bool is_exchange) {
    bool is_releasing =
        order == __ATOMIC_RELEASE || order == __ATOMIC_ACQ_REL || order == __ATOMIC_SEQ_CST;
    Sync *sync = sync_at(at, true);
    if (!is_exchange) memset(&sync->clock, 0, sizeof sync->clock);
    join_clock(&sync->clock, is_releasing ? &mine()->clock : &mine()->released);
    if (is_releasing) next_epoch();
}

void fence_clock(int order) {
    Seat *s = mine();
    if (order != __ATOMIC_RELEASE) join_clock(&s->clock, &s->acquired);
    if (order == __ATOMIC_SEQ_CST) {
        join_clock(&s->clock, &sequential);
        join_clock(&sequential, &s->clock);
    }
    if (order >= __ATOMIC_RELEASE) {
        s->released = s->clock;
        next_epoch();
    }
}
