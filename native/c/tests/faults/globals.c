// A test that fails by what an earlier run left in a global.
#include "pct_test.h"

static int runs;

static void Only(void) {
    pct_step();
    runs++;
    PCT_CHECK(runs < 5);
}

int main(int count, char **words) {
    static const char *const names[] = { "Only" };
    static void (*const functions[])(void) = { Only };
    pct_options(count, words);
    return pct_threads(1, names, functions);
}
