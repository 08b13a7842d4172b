// A thread that waits in a call which isn't the layer's: -DWAITS=poll_long() or the like.
#include "pct_test.h"
#include <poll.h>
#include <pthread.h>
#include <stdio.h>

static pthread_mutex_t real = PTHREAD_MUTEX_INITIALIZER;
static volatile int forever = 1;

static inline __attribute__((unused)) void poll_long(void) {
    if (poll(NULL, 0, 2500) != 0) perror("poll was interrupted");
}

static inline __attribute__((unused)) void lock_real(void) { pthread_mutex_lock(&real); }

static inline __attribute__((unused)) void go_round(void) {
    while (forever) continue;
}

static void Holder(void) {
    pthread_mutex_lock(&real);
    pct_step();
    pthread_mutex_unlock(&real);
}

static void Waiter(void) {
    pct_step();
    WAITS;
}

int main(int count, char **words) {
    static const char *const names[] = { "Waiter", "Holder" };
    static void (*const functions[])(void) = { Waiter, Holder };
    pct_options(count, words);
    return pct_threads(2, names, functions);
}
