// A main with several tests, of which two have one name.
#include "pct_test.h"

static int x;

static void *set(void *value) {
    pct_store(&x, (int)(intptr_t)value);
    return NULL;
}

static void sets(void) {
    pct_thread_t thread;
    pct_create(&thread, NULL, set, (void *)3);
    pct_join(thread, NULL);
    PCT_CHECK(pct_load(&x) == 4);
}

static void passes(void) { PCT_CHECK(pct_load(&x) == 0); }

static void Adder(void) { pct_add(&x, 1); }

static void Looker(void) { PCT_CHECK(pct_load(&x) == 0); }

static void reset(void) { x = 0; }

static int run_two(const char *const *names) {
    static void (*const functions[])(void) = { Adder, Looker };
    return pct_threads(2, names, functions);
}

int main(int count, char **words) {
    static const char *const names[] = { "Adder", "Looker" }, *const others[] = { "A", "B" };
    pct_options(count, words);
    pct_reset(reset);
    int failed = pct_check(sets);
    failed |= pct_check(passes);
    failed |= run_two(names);
    failed |= run_two(others);
    return failed;
}
