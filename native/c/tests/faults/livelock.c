// Two threads that each wait for the other's flag by pct_yield: nobody ever changes something.
#include "pct_test.h"

static int a, b;

static void Left(void) {
    while (!pct_load(&b))
        pct_yield();
    pct_store(&a, 1);
}

static void Right(void) {
    while (!pct_load(&a))
        pct_yield();
    pct_store(&b, 1);
}

static void reset(void) {
    a = b = 0;
}

int main(int count, char **words) {
    static const char *const names[] = { "Left", "Right" };
    static void (*const functions[])(void) = { Left, Right };
    pct_options(count, words);
    pct_reset(reset);
    return pct_threads(2, names, functions);
}
