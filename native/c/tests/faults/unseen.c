// A variable that two threads use, and that one of them changes without a step.
#include "pct_test.h"

static int x, y;

static void Writer(void) {
    pct_store(&x, 1);
    pct_store(&y, 1);
    x = 2;
    pct_load(&x);
}

static void Reader(void) { pct_load(&x); }

static void reset(void) {
    x = y = 0;
}

int main(int count, char **words) {
    static const char *const names[] = { "Writer", "Reader" };
    static void (*const functions[])(void) = { Writer, Reader };
    pct_options(count, words);
    pct_reset(reset);
    return pct_threads(2, names, functions);
}
