// examples/lost_wakeup_mended.pct in C, each step in its line. See there.
#include "pct_test.h"
static int ready = 0;
static pct_mutex_t m = PCT_MUTEX_INITIALIZER;
static pct_cond_t is_ready = PCT_COND_INITIALIZER;

static void Waiter(void) { int r0 = 0;
    pct_mutex_lock(&m);
    r0 = pct_load(&ready);
    while (r0 == 0) {
        pct_cond_wait(&is_ready, &m);
        r0 = pct_load(&ready);
    }
    pct_mutex_unlock(&m);
}

static void Setter(void) {
    pct_mutex_lock(&m);
    pct_store(&ready, 1);
    pct_cond_signal(&is_ready);
    pct_mutex_unlock(&m);
}

static void reset(void) {
    ready = 0;
}

int main(int count, char **words) {
    static const char *const names[] = { "Waiter", "Setter" };
    static void (*const functions[])(void) = { Waiter, Setter };
    pct_options(count, words);
    pct_reset(reset);
    return pct_threads(2, names, functions);
}
