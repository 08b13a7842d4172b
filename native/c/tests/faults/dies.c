// A worker that dies as the compiler's words say: -DDIES=abort() or the like.
#include "pct_test.h"
#include <stdlib.h>

static int turn;
static int *volatile nowhere;
static int *volatile cell;

static inline __attribute__((unused)) void write_null(void) { *nowhere = 1; }
static inline __attribute__((unused)) void use_freed(void) {
    free(cell);
    *cell = 1;
}

static void Worker(void) {
    pct_store(&turn, 1);
    if (pct_load(&turn) == 2)
        DIES;
    pct_step();
}

static void Passer(void) {
    pct_store(&turn, 2);
}

static void reset(void) {
    turn = 0;
    free(cell);
    cell = malloc(sizeof *cell);
}

int main(int count, char **words) {
    static const char *const names[] = { "Worker", "Passer" };
    static void (*const functions[])(void) = { Worker, Passer };
    pct_options(count, words);
    pct_reset(reset);
    return pct_threads(2, names, functions);
}
