// examples/pool.pct in C, each step in its line. See there.
// The numbers of threads are the places of their names in main.
#include "pct_test.h"
static int jobs = 0;
static int is_closed = 0;
static pct_mutex_t m = PCT_MUTEX_INITIALIZER;
static pct_cond_t changed = PCT_COND_INITIALIZER;

static void Main(void) {
    pct_mutex_lock(&m);
    pct_store(&jobs, 1);
    pct_cond_signal(&changed);
    pct_mutex_unlock(&m);
    pct_store(&is_closed, 1);           // without the mutex
    pct_cond_broadcast(&changed);
}

static void Worker1(void) { int r0 = 0, r1 = 0, r2 = 0;
    pct_mutex_lock(&m);
    while (r2 == 0) {
        r0 = pct_load(&jobs);
        if (r0) {
            pct_store(&jobs, 0);
        } else {
            r1 = pct_load(&is_closed);
            if (r1) {
                r2 = 1;
            } else {
                pct_cond_wait(&changed, &m);
            }
        }
    }
    pct_mutex_unlock(&m);
}

static void Worker2(void) { int r0 = 0, r1 = 0, r2 = 0;
    pct_mutex_lock(&m);
    while (r2 == 0) {
        r0 = pct_load(&jobs);
        if (r0) {
            pct_store(&jobs, 0);
        } else {
            r1 = pct_load(&is_closed);
            if (r1) {
                r2 = 1;
            } else {
                pct_cond_wait(&changed, &m);
            }
        }
    }
    pct_mutex_unlock(&m);
}

static void reset(void) {
    jobs = 0;
    is_closed = 0;
}

int main(int count, char **words) {
    static const char *const names[] = { "Main", "Worker1", "Worker2" };
    static void (*const functions[])(void) = { Main, Worker1, Worker2 };
    pct_options(count, words);
    pct_reset(reset);
    return pct_threads(3, names, functions);
}
