// The test of stands_pthread.c.
#include "pct_test.h"

int does_both(void);

static void test(void) { PCT_CHECK(does_both()); }

int main(int count, char **words) {
    pct_options(count, words);
    return pct_check(test);
}
