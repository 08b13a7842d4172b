// Memory that is freed while another thread is about to look there.
#include "pct_test.h"
#include <stdlib.h>

static int *cell;

static void Looker(void) { pct_load(cell); }

static void Freer(void) {
    pct_load(cell);
    free(cell);
    pct_step();
}

static void reset(void) {
    cell = malloc(sizeof *cell);
    *cell = 1;
}

int main(int count, char **words) {
    static const char *const names[] = { "Looker", "Freer" };
    static void (*const functions[])(void) = { Looker, Freer };
    pct_options(count, words);
    pct_reset(reset);
    return pct_threads(2, names, functions);
}
