// Objects that a run first meets in its midst, in an order and with numbers that depend on the
// schedule; and runs that are longer than the one in declared order.
#include "pct_test.h"

static int seven = 7, nine = 9;
static pct_mutex_t mutex = PCT_MUTEX_INITIALIZER;
static pct_cond_t cond = PCT_COND_INITIALIZER;
static pct_sem_t two = PCT_SEM_INITIALIZER(2), five = PCT_SEM_INITIALIZER(5);
static pct_barrier_t alone = PCT_BARRIER_INITIALIZER(1);
static pct_rwlock_t lock = PCT_RWLOCK_INITIALIZER;

static void Left(void) {
    pct_sem_wait(&two);
    pct_add(&seven, 1);
    pct_sem_wait(&five);
    pct_mutex_lock(&mutex);
    pct_add(&nine, 1);
    pct_mutex_unlock(&mutex);
}

static void Right(void) {
    pct_sem_wait(&five);
    for (int i = pct_load(&nine); i < 10; i++)
        pct_step();
    pct_rwlock_rdlock(&lock);
    pct_sem_wait(&two);
    pct_add(&seven, 1);
    pct_rwlock_unlock(&lock);
    pct_barrier_wait(&alone);
    pct_cond_signal(&cond);
}

static void reset(void) {
    seven = 7;
    nine = 9;
}

int main(int count, char **words) {
    static const char *const names[] = { "Left", "Right" };
    static void (*const functions[])(void) = { Left, Right };
    pct_options(count, words);
    pct_reset(reset);
    return pct_threads(2, names, functions);
}
