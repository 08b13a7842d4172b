// Between an answer and the next ask a thread is alone, in the destructor of a key, too, though
// threads sleep as they like: a flag that is taken there is always free. What each does is drawn.
#define _GNU_SOURCE
#include "pct_test.h"
#include <stdlib.h>
#include <unistd.h>

static int is_inside, x, y;
static pct_mutex_t mutex = PCT_MUTEX_INITIALIZER;
static unsigned drawn = 1, run_seed;
static pthread_key_t key;
static pthread_once_t once = PTHREAD_ONCE_INIT;

// Alone, for at most 50 microseconds.
static void be_alone(unsigned *state) {
    *state = *state * 1103515245 + 12345;
    if (__atomic_exchange_n(&is_inside, 1, __ATOMIC_RELAXED)) abort();
    if (*state >> 28 == 0) usleep(*state >> 16 & 31);
    __atomic_store_n(&is_inside, 0, __ATOMIC_RELAXED);
}

static void at_end(void *state) {
    be_alone(state);
    pct_add(&x, 1);
    be_alone(state);
    free(state);
}

static void make_key(void) { pthread_key_create(&key, at_end); }

static void *work(void *which) {
    unsigned *state = malloc(sizeof *state);
    pthread_once(&once, make_key);
    *state = run_seed * 31 + (unsigned)(intptr_t)which;
    pthread_setspecific(key, state);
    for (int i = 0; i < 4; i++) {
        be_alone(state);
        switch (*state >> 20 & 3) {
        case 0: pct_add(&x, 1); break;
        case 1: pct_exchange(&y, i); break;
        case 2: pct_step(); break;
        default: pct_mutex_lock(&mutex), be_alone(state), pct_mutex_unlock(&mutex);
        }
        be_alone(state);
    }
    return NULL;
}

static void test(void) {
    pct_thread_t threads[3];
    for (intptr_t i = 0; i < 3; i++) pct_create(&threads[i], NULL, work, (void *)i);
    for (int i = 0; i < 3; i++) pct_join(threads[i], NULL);
    PCT_CHECK(pct_load(&x) >= 3);
}

static void reset(void) {
    x = y = is_inside = 0;
    run_seed = drawn++;
}

int main(int count, char **words) {
    pct_options(count, words);
    pct_reset(reset);
    return pct_check(test);
}
