// examples/wait_with_if.pct in C, each step in its line. See there.
#include "pct_test.h"
static int items = 0;
static pct_mutex_t m = PCT_MUTEX_INITIALIZER;
static pct_cond_t changed = PCT_COND_INITIALIZER;

static void First(void) { int r0 = 0;
    pct_mutex_lock(&m);
    r0 = pct_load(&items);
    if (r0 == 0) {
        pct_cond_wait(&changed, &m);
    }
    r0 = pct_load(&items);              // woken, but is there an item still?
    PCT_CHECK(r0 > 0);
    pct_store(&items, r0 - 1);
    pct_mutex_unlock(&m);
}

static void Second(void) { int r0 = 0;
    pct_mutex_lock(&m);
    r0 = pct_load(&items);
    if (r0 == 0) {
        pct_cond_wait(&changed, &m);
    }
    r0 = pct_load(&items);
    PCT_CHECK(r0 > 0);
    pct_store(&items, r0 - 1);
    pct_mutex_unlock(&m);
}

static void Putter(void) { int r1 = 0;
    while (r1 < 2) {
        pct_mutex_lock(&m);
        pct_add(&items, 1);
        pct_cond_broadcast(&changed);
        pct_mutex_unlock(&m);
        r1 = r1 + 1;
    }
}

static void reset(void) {
    items = 0;
}

int main(int count, char **words) {
    static const char *const names[] = { "First", "Second", "Putter" };
    static void (*const functions[])(void) = { First, Second, Putter };
    pct_options(count, words);
    pct_reset(reset);
    return pct_threads(3, names, functions);
}
