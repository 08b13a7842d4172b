// A sleep isn't stuck where nobody else can go on, and a loop that looks and sleeps doesn't go on alone.
#include "pct_test.h"

static int is_ready, seen;

static void *sleeps(void *nothing) {
    pct_sleep();
    pct_sleep();
    pct_store(&is_ready, 1);
    while (!pct_load(&seen))
        pct_sleep();
    return nothing;
}

static void test(void) {
    pct_thread_t thread;
    pct_create(&thread, NULL, sleeps, NULL);
    while (!pct_load(&is_ready))
        pct_sleep();
    pct_store(&seen, 1);
    pct_join(thread, NULL);
    pct_sleep();
}

static void reset(void) { is_ready = seen = 0; }

int main(int count, char **words) {
    pct_options(count, words);
    pct_reset(reset);
    return pct_check(test);
}
