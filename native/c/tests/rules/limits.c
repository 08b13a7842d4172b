// One more than there may be: -DMOST=mutexes(), threads() or waits().
#include "pct_test.h"

static pct_mutex_t many[65];

static inline __attribute__((unused)) void mutexes(void) {
    for (int i = 0; i < 65; i++)
        pct_mutex_lock(&many[i]);
}

static inline __attribute__((unused)) void *nothing(void *argument) { return argument; }

static inline __attribute__((unused)) void threads(void) {
    pct_thread_t thread;
    for (int i = 0; i < 64; i++)
        pct_create(&thread, NULL, nothing, NULL);
}

// So many mutexes one after the other are allowed.
static inline __attribute__((unused)) void gone(void) {
    for (int i = 0; i < 200; i++) {
        pct_mutex_t one = PCT_MUTEX_INITIALIZER;
        pct_mutex_lock(&one);
        pct_mutex_unlock(&one);
        pct_mutex_destroy(&one);
    }
}

// Of variables there may be any number; those past 64 are steps without a name.
static inline __attribute__((unused)) void variables(void) {
    static int cells[80];
    for (int i = 0; i < 80; i++)
        pct_store(&cells[i], i);
    for (int i = 0; i < 80; i++)
        PCT_CHECK(pct_add(&cells[i], 1) == i && pct_load(&cells[i]) == i + 1);
    for (int i = 0; i < 80; i++)
        cells[i] = 0;
    pct_forget(cells, sizeof cells);
}

// A thread that waits in pct_yield has a semaphore, too.
static inline __attribute__((unused)) void waits(void) {
    static pct_sem_t sems[64];
    for (int i = 0; i < 64; i++) {
        pct_sem_init(&sems[i], 0, 1);
        pct_sem_wait(&sems[i]);
    }
    pct_yield();
    pct_yield();
}

static void test(void) { MOST; }

int main(int count, char **words) {
    pct_options(count, words);
    return pct_check(test);
}
