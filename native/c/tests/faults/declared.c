// A test that fails in the declared order of its threads, and passes in the other one.
#include "pct_test.h"

static int x;

static void Looker(void) { PCT_CHECK(pct_load(&x) == 1); }

static void Setter(void) { pct_store(&x, 1); }

static void reset(void) { x = 0; }

int main(int count, char **words) {
    static const char *const names[] = { "Looker", "Setter" };
    static void (*const orders[])(void) = { Looker, Setter };
    pct_options(count, words);
    pct_reset(reset);
    return pct_threads(2, names, orders);
}
