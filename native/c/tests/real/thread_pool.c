// A thread pool that shuts down, after the work queue of Bradford Nichols, Dick Buttlar and
// Jacqueline Farrell, *Pthreads Programming*, chapter 3: workers wait for jobs, and those that were
// given are done before the pool is gone. MISTAKE is 0 for the pool as it is; 1: the end is told
// without the mutex; 2: it is told to one worker alone; 3: a worker goes home though a job is left.
#include "pct_test.h"

#ifndef MISTAKE
#define MISTAKE 0
#endif

enum { WORKERS = 2, JOBS = 3 };

static struct {
    pct_mutex_t mutex;
    pct_cond_t changed;
    int waiting, is_closed;
    pct_thread_t workers[WORKERS];
} pool;
static int done;

static void *work(void *nothing) {
    for (;;) {
        pct_mutex_lock(&pool.mutex);
        while (pct_load(&pool.waiting) == 0 && !pct_load(&pool.is_closed))
            pct_cond_wait(&pool.changed, &pool.mutex);
        int has_job = pct_load(&pool.waiting) > 0;
        if (!has_job || (MISTAKE == 3 && pct_load(&pool.is_closed))) {
            pct_mutex_unlock(&pool.mutex);
            return nothing;
        }
        pct_add(&pool.waiting, -1);
        pct_mutex_unlock(&pool.mutex);
        pct_add(&done, 1);
    }
}

static void give_job(void) {
    pct_mutex_lock(&pool.mutex);
    pct_add(&pool.waiting, 1);
    pct_cond_signal(&pool.changed);
    pct_mutex_unlock(&pool.mutex);
}

static void close_pool(void) {
    if (MISTAKE != 1) pct_mutex_lock(&pool.mutex);
    pct_store(&pool.is_closed, 1);
    if (MISTAKE == 2)
        pct_cond_signal(&pool.changed);
    else
        pct_cond_broadcast(&pool.changed);
    if (MISTAKE != 1) pct_mutex_unlock(&pool.mutex);
    for (int i = 0; i < WORKERS; i++) pct_join(pool.workers[i], NULL);
}

static void test(void) {
    pct_mutex_init(&pool.mutex, PCT_MUTEX_NORMAL);
    pct_cond_init(&pool.changed, NULL);
    for (int i = 0; i < WORKERS; i++) pct_create(&pool.workers[i], NULL, work, NULL);
    for (int i = 0; i < JOBS; i++) give_job();
    close_pool();
    PCT_CHECK(pct_load(&done) == JOBS);
}

static void reset(void) { done = pool.waiting = pool.is_closed = 0; }

int main(int count, char **words) {
    pct_options(count, words);
    pct_reset(reset);
    return pct_check(test);
}
