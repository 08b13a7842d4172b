// A thread that is created in some orders alone: n isn't known before a run comes to it.
#include "pct_test.h"

static int x;

static void *add(void *nothing) {
    pct_add(&x, 1);
    return nothing;
}

static void First(void) {
    pct_thread_t extra;
    if (pct_load(&x) == 0)
        return;
    pct_create(&extra, NULL, add, NULL);
    pct_join(extra, NULL);
    PCT_CHECK(pct_load(&x) != 3);
}

static void Second(void) {
    pct_store(&x, 1);
    pct_add(&x, 1);
}

static void reset(void) { x = 0; }

int main(int count, char **words) {
    static const char *const names[] = { "First", "Second" };
    static void (*const functions[])(void) = { First, Second };
    pct_options(count, words);
    pct_reset(reset);
    return pct_threads(2, names, functions);
}
