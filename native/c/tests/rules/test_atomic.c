// The test of stands_atomic.c.
#include "pct_test.h"

int counts_all(void);

static void test(void) { PCT_CHECK(counts_all()); }

int main(int count, char **words) {
    pct_options(count, words);
    return pct_check(test);
}
