// examples/bounded_buffer_mended.pct in C, each step in its line. See there.
#include "pct_test.h"
static int full = 0;
static pct_mutex_t m = PCT_MUTEX_INITIALIZER;
static pct_cond_t room = PCT_COND_INITIALIZER;
static pct_cond_t item = PCT_COND_INITIALIZER;

static void P1(void) { int r0 = 0, r1 = 0;
    while (r1 < 2) {
        pct_mutex_lock(&m);
        r0 = pct_load(&full);
        while (r0 == 1) {
            pct_cond_wait(&room, &m);
            r0 = pct_load(&full);
        }
        PCT_CHECK(r0 == 0);
        pct_store(&full, 1);
        pct_cond_signal(&item);
        pct_mutex_unlock(&m);
        r1 = r1 + 1;
    }
}

static void P2(void) { int r0 = 0, r1 = 0;
    while (r1 < 2) {
        pct_mutex_lock(&m);
        r0 = pct_load(&full);
        while (r0 == 1) {
            pct_cond_wait(&room, &m);
            r0 = pct_load(&full);
        }
        PCT_CHECK(r0 == 0);
        pct_store(&full, 1);
        pct_cond_signal(&item);
        pct_mutex_unlock(&m);
        r1 = r1 + 1;
    }
}

static void Q(void) { int r0 = 0, r1 = 0;
    while (r1 < 4) {
        pct_mutex_lock(&m);
        r0 = pct_load(&full);
        while (r0 == 0) {
            pct_cond_wait(&item, &m);
            r0 = pct_load(&full);
        }
        pct_store(&full, 0);
        pct_cond_signal(&room);
        pct_mutex_unlock(&m);
        r1 = r1 + 1;
    }
}

static void reset(void) {
    full = 0;
}

int main(int count, char **words) {
    static const char *const names[] = { "P1", "P2", "Q" };
    static void (*const functions[])(void) = { P1, P2, Q };
    pct_options(count, words);
    pct_reset(reset);
    return pct_threads(3, names, functions);
}
