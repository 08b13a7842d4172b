// A test that is edited before its replay: -DEDIT=1 changes a value, and 2 takes a thread's way.
#include "pct_test.h"

#ifndef EDIT
#define EDIT 0
#endif

static int x;
static pct_sem_t never = PCT_SEM_INITIALIZER(0);

static void One(void) {
    pct_store(&x, EDIT == 1 ? 5 : 4);
    pct_add(&x, 1);
}

static void Two(void) {
    if (EDIT == 2) pct_sem_wait(&never);
    PCT_CHECK(pct_load(&x) != 5);
}

static void reset(void) { x = 0; }

int main(int count, char **words) {
    static const char *const names[] = { "One", "Two" };
    static void (*const functions[])(void) = { One, Two };
    pct_options(count, words);
    pct_reset(reset);
    return pct_threads(2, names, functions);
}
