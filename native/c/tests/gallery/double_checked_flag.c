// examples/double_checked_flag.pct in C, each step in its line. See there.
#include "pct_test.h"
static int is_made = 0;
static int value = 0;
static pct_mutex_t m = PCT_MUTEX_INITIALIZER;

static void A(void) { int r0 = 0;
    r0 = pct_load(&is_made);            // without the lock
    if (r0 == 0) {
        pct_mutex_lock(&m);
        r0 = pct_load(&is_made);
        if (r0 == 0) {
            pct_store(&is_made, 1);
            pct_store(&value, 42);
        }
        pct_mutex_unlock(&m);
    }
    r0 = pct_load(&value);
    PCT_CHECK(r0 == 42);
}

static void B(void) { int r0 = 0;
    r0 = pct_load(&is_made);
    if (r0 == 0) {
        pct_mutex_lock(&m);
        r0 = pct_load(&is_made);
        if (r0 == 0) {
            pct_store(&is_made, 1);
            pct_store(&value, 42);
        }
        pct_mutex_unlock(&m);
    }
    r0 = pct_load(&value);
    PCT_CHECK(r0 == 42);
}

static void reset(void) {
    is_made = 0;
    value = 0;
}

int main(int count, char **words) {
    static const char *const names[] = { "A", "B" };
    static void (*const functions[])(void) = { A, B };
    pct_options(count, words);
    pct_reset(reset);
    return pct_threads(2, names, functions);
}
