// A lock that spins by pct_yield: nobody spins for ever, and a flag that is set late ends a wait.
#include "pct_test.h"

static int is_locked, inside, is_done, noise;

static void lock(void) {
    while (pct_exchange(&is_locked, 1)) pct_yield();
}

static void unlock(void) { pct_store(&is_locked, 0); }

static void Worker(void) {
    for (int i = 0; i < 2; i++) {
        lock();
        PCT_CHECK(pct_add(&inside, 1) == 0);
        pct_add(&inside, -1);
        unlock();
    }
    pct_add(&is_done, 1);
}

static void Noisy(void) {
    for (int i = 0; i < 5; i++) pct_add(&noise, 1);
    pct_add(&is_done, 1);
}

static void Watcher(void) {
    while (pct_load(&is_done) < 3) pct_yield();
}

static void reset(void) { is_locked = inside = is_done = noise = 0; }

int main(int count, char **words) {
    static const char *const names[] = { "A", "B", "Noisy", "Watcher" };
    static void (*const functions[])(void) = { Worker, Worker, Noisy, Watcher };
    pct_options(count, words);
    pct_reset(reset);
    return pct_threads(4, names, functions);
}
