// A step on memory that another thread has freed, which the address sanitizer forbids.
#include "pct_test.h"
#include <stdlib.h>

static int *cell;
static int is_done;

static void *user(void *nothing) {
    for (int i = 0; i < 4; i++)
        pct_step();
    if (!pct_load(&is_done))
        pct_add(cell, 1);
    return nothing;
}

static void frees(void) {
    pct_thread_t thread;
    cell = malloc(sizeof *cell);
    *cell = 0;
    is_done = 0;
    pct_create(&thread, NULL, user, NULL);
    pct_step();
    free(cell);
    pct_store(&is_done, 1);
    pct_join(thread, NULL);
}

int main(int count, char **words) {
    pct_options(count, words);
    return pct_check(frees);
}
