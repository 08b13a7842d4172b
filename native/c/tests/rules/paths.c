// Two threads create one each: which one has its number first depends on the order, but by who
// created it a thread is the same in all orders, so a directive that names one can be certified.
#include "pct_test.h"

static int x;

static void *set(void *value) {
    pct_store(&x, (int)(intptr_t)value);
    return NULL;
}

static void *look(void *nothing) {
    PCT_CHECK(pct_load(&x) == 0);
    return nothing;
}

static void Left(void) {
    pct_thread_t left;
    pct_create(&left, NULL, set, (void *)1);
}

static void Right(void) {
    pct_thread_t right;
    pct_create(&right, NULL, look, NULL);
}

static void reset(void) { x = 0; }

int main(int count, char **words) {
    static const char *const names[] = { "Left", "Right" };
    static void (*const functions[])(void) = { Left, Right };
    pct_options(count, words);
    pct_reset(reset);
    return pct_threads(2, names, functions);
}
