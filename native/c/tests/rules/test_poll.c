// The test of stands_poll.c.
#include "pct_test.h"

int serves_all(void);

static void test(void) { PCT_CHECK(serves_all()); }

int main(int count, char **words) {
    pct_options(count, words);
    return pct_check(test);
}
