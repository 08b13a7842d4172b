// examples/lost_update_mended.pct in C, each step in its line. See there.
#include "pct_test.h"
static int counter = 0;

static void A(void) {
    pct_add(&counter, 1);
}

static void B(void) {
    pct_add(&counter, 1);
}

static void Check(void) { int r0 = 0;
    pct_join(0, NULL);                  // A
    pct_join(1, NULL);                  // B
    r0 = pct_load(&counter);
    PCT_CHECK(r0 == 2);
}

static void reset(void) {
    counter = 0;
}

int main(int count, char **words) {
    static const char *const names[] = { "A", "B", "Check" };
    static void (*const functions[])(void) = { A, B, Check };
    pct_options(count, words);
    pct_reset(reset);
    return pct_threads(3, names, functions);
}
