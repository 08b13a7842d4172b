// A directive of a run of three threads, and an order of it in which a fourth one is started.
#include "pct_test.h"

static int x;

static void *nothing(void *argument) { return argument; }

static void First(void) {
    pct_thread_t further;
    PCT_CHECK(pct_load(&x) == 1);
    pct_create(&further, NULL, nothing, NULL);
    pct_join(further, NULL);
}

static void Second(void) { pct_store(&x, 1); }

static void Third(void) { pct_step(); }

static void reset(void) { x = 0; }

int main(int count, char **words) {
    static const char *const names[] = { "First", "Second", "Third" };
    static void (*const starts_further[])(void) = { First, Second, Third };
    pct_options(count, words);
    pct_reset(reset);
    return pct_threads(3, names, starts_further);
}
