// examples/barrier_count_mended.pct in C, each step in its line. See there.
#include "pct_test.h"
static pct_barrier_t all = PCT_BARRIER_INITIALIZER(4);
static int parts = 0;

static void A(void) { int r0 = 0;
    r0 = pct_add(&parts, 1);
    pct_barrier_wait(&all);
    r0 = pct_load(&parts);
    PCT_CHECK(r0 == 4);
}

static void B(void) { int r0 = 0;
    r0 = pct_add(&parts, 1);
    pct_barrier_wait(&all);
    r0 = pct_load(&parts);
    PCT_CHECK(r0 == 4);
}

static void C(void) { int r0 = 0;
    r0 = pct_add(&parts, 1);
    pct_barrier_wait(&all);
    r0 = pct_load(&parts);
    PCT_CHECK(r0 == 4);
}

static void D(void) { int r0 = 0;
    r0 = pct_add(&parts, 1);
    pct_barrier_wait(&all);
    r0 = pct_load(&parts);
    PCT_CHECK(r0 == 4);
}

static void reset(void) {
    parts = 0;
}

int main(int count, char **words) {
    static const char *const names[] = { "A", "B", "C", "D" };
    static void (*const functions[])(void) = { A, B, C, D };
    pct_options(count, words);
    pct_reset(reset);
    return pct_threads(4, names, functions);
}
