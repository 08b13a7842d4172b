// examples/upgraded_read_lock_mended.pct in C, each step in its line. See there.
#include "pct_test.h"
static pct_rwlock_t l = PCT_RWLOCK_INITIALIZER;
static int entry = 0;

static void Fill(void) { int r0 = 0;
    pct_rwlock_rdlock(&l);
    r0 = pct_load(&entry);
    pct_rwlock_unlock(&l);
    if (r0 == 0) {
        pct_rwlock_wrlock(&l);
        r0 = pct_load(&entry);
        if (r0 == 0) {
            pct_store(&entry, 7);
        }
        pct_rwlock_unlock(&l);
    }
}

static void Preload(void) {
    pct_rwlock_wrlock(&l);
    pct_store(&entry, 7);
    pct_rwlock_unlock(&l);
}

static void reset(void) {
    entry = 0;
}

int main(int count, char **words) {
    static const char *const names[] = { "Fill", "Preload" };
    static void (*const functions[])(void) = { Fill, Preload };
    pct_options(count, words);
    pct_reset(reset);
    return pct_threads(2, names, functions);
}
