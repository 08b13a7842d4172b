// The mutex of three states over a futex, after Ulrich Drepper, *Futexes Are Tricky*, section 5: 0
// is free, 1 taken, and 2 taken with waiters, perhaps. MISTAKE is 0 for the mutex as it is; 1: who
// was woken takes it by a 1, so a further waiter is forgotten; 2: the unlock looks and then stores,
// in place of one exchange; 3: the unlock wakes before it lets go.
#include "pct_test.h"

#ifndef MISTAKE
#define MISTAKE 0
#endif

static uint32_t state;
static int inside, rounds;

static void lock(void) {
    uint32_t seen = pct_cas_value(&state, 0u, 1u);
    if (seen == 0) return;
    do {
        if (seen == 2 || pct_cas_value(&state, 1u, 2u) != 0) pct_futex_wait(&state, 2);
        seen = pct_cas_value(&state, 0u, MISTAKE == 1 ? 1u : 2u);
    } while (seen != 0);
}

static void unlock(void) {
    if (MISTAKE == 2) {
        uint32_t seen = pct_load(&state);
        pct_store(&state, 0u);
        if (seen == 2) pct_futex_wake(&state, 1);
    } else if (MISTAKE == 3) {
        pct_futex_wake(&state, 1);
        pct_store(&state, 0u);
    } else if (pct_add(&state, -1) != 1) {
        pct_store(&state, 0u);
        pct_futex_wake(&state, 1);
    }
}

static void Worker(void) {
    lock();
    PCT_CHECK(pct_add(&inside, 1) == 0);
    rounds++;
    pct_add(&inside, -1);
    unlock();
}

static void reset(void) {
    state = 0;
    inside = rounds = 0;
}

int main(int count, char **words) {
    static const char *const names[] = { "A", "B", "C" };
    static void (*const functions[])(void) = { Worker, Worker, Worker };
    pct_options(count, words);
    pct_reset(reset);
    return pct_threads(3, names, functions);
}
