// A thread that goes round without a step.
#include "pct_test.h"

static volatile int forever = 1;

static void Round(void) {
    pct_step();
    while (forever)
        continue;
}

int main(int count, char **words) {
    static const char *const names[] = { "Round" };
    static void (*const functions[])(void) = { Round };
    pct_options(count, words);
    return pct_threads(1, names, functions);
}
