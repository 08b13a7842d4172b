// A check in the midst of another test's run.
#include "pct_test.h"

static void inner(void) { pct_step(); }

static void outer(void) { pct_check(inner); }

int main(int count, char **words) {
    pct_options(count, words);
    return pct_check(outer);
}
