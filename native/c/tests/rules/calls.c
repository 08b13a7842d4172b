// Each call once, and what POSIX says that it gives.
#include "pct_test.h"

static pct_mutex_t normal = PCT_MUTEX_INITIALIZER;
static pct_mutex_t recursive = PCT_RECURSIVE_MUTEX_INITIALIZER;
static pct_mutex_t checked = PCT_ERRORCHECK_MUTEX_INITIALIZER;
static pct_cond_t cond = PCT_COND_INITIALIZER;
static pct_sem_t sem = PCT_SEM_INITIALIZER(1);
static pct_barrier_t barrier = PCT_BARRIER_INITIALIZER(2);
static pct_rwlock_t lock = PCT_RWLOCK_INITIALIZER;
static pct_once_t once = PCT_ONCE_INIT;
static struct timespec never;
static int is_told, made, serial, asleep;
static uint32_t word;

static void make(void) { made++; }

static void *use_objects(void *argument) {
    PCT_CHECK(pct_mutex_trylock(&checked) == EBUSY);
    PCT_CHECK(pct_mutex_unlock(&checked) == EPERM);
    PCT_CHECK(pct_mutex_unlock(&recursive) == EPERM);
    PCT_CHECK(pct_mutex_trylock(&recursive) == EBUSY);
    PCT_CHECK(pct_rwlock_trywrlock(&lock) == EBUSY);
    PCT_CHECK(pct_rwlock_tryrdlock(&lock) == 0);
    PCT_CHECK(pct_rwlock_unlock(&lock) == 0);
    PCT_CHECK(pct_once(&once, make) == 0);
    pct_mutex_lock(&normal);
    pct_store(&is_told, 1);
    PCT_CHECK(pct_cond_broadcast(&cond) == 0 && pct_cond_signal(&cond) == 0);
    pct_mutex_unlock(&normal);
    pct_add(&serial, pct_barrier_wait(&barrier) == PCT_BARRIER_SERIAL_THREAD);
    PCT_CHECK(pct_self() == 1);
    pct_exit(argument);
}

static void use_mutexes(void) {
    PCT_CHECK(pct_mutex_lock(&recursive) == 0 && pct_mutex_lock(&recursive) == 0);
    PCT_CHECK(pct_mutex_trylock(&recursive) == 0 && pct_mutex_unlock(&recursive) == 0);
    PCT_CHECK(pct_mutex_unlock(&recursive) == 0 && pct_mutex_destroy(&recursive) == EBUSY);
    PCT_CHECK(pct_mutex_unlock(&checked) == EPERM && pct_mutex_lock(&checked) == 0);
    PCT_CHECK(pct_mutex_lock(&checked) == EDEADLK && pct_mutex_trylock(&checked) == EBUSY);
    PCT_CHECK(pct_mutex_timedlock(&normal, &never) == 0 && pct_mutex_trylock(&normal) == EBUSY);
    PCT_CHECK(pct_mutex_unlock(&normal) == 0);
}

static void use_semaphore(void) {
    int value;
    pct_sem_t other;
    PCT_CHECK(pct_sem_wait(&sem) == 0 && pct_sem_trywait(&sem) == -1 && errno == EAGAIN);
    PCT_CHECK(pct_sem_post(&sem) == 0 && pct_sem_getvalue(&sem, &value) == 0 && value == 1);
    PCT_CHECK(pct_sem_timedwait(&sem, &never) == 0 && pct_sem_post(&sem) == 0);
    PCT_CHECK(pct_sem_init(&other, 0, 1u << 31) == -1 && errno == EINVAL);
    PCT_CHECK(pct_sem_init(&other, 0, 2) == 0 && pct_sem_trywait(&other) == 0);
    PCT_CHECK(pct_sem_destroy(&other) == 0);
}

static void use_threads(void) {
    void *value;
    pct_thread_t thread;
    PCT_CHECK(pct_self() == 0 && pct_join(0, NULL) == EDEADLK && pct_join(9, NULL) == ESRCH);
    PCT_CHECK(pct_create(&thread, NULL, use_objects, &word) == 0);
    pct_mutex_lock(&normal);
    while (!pct_load(&is_told)) PCT_CHECK(pct_cond_timedwait(&cond, &normal, &never) == 0);
    pct_mutex_unlock(&normal);
    pct_add(&serial, pct_barrier_wait(&barrier) == PCT_BARRIER_SERIAL_THREAD);
    PCT_CHECK(pct_join(thread, &value) == 0 && value == &word && pct_load(&serial) == 1);
    PCT_CHECK(pct_join(thread, NULL) == EINVAL && pct_detach(thread) == EINVAL);
}

static void *meet(void *nothing) {
    pct_barrier_wait(&barrier);
    return nothing;
}

static void use_detached(void) {
    pct_thread_t detached, other;
    pthread_attr_t attr;
    pthread_attr_init(&attr);
    pthread_attr_setdetachstate(&attr, PTHREAD_CREATE_DETACHED);
    PCT_CHECK(pct_create(&detached, &attr, meet, NULL) == 0);
    pthread_attr_destroy(&attr);
    PCT_CHECK(pct_join(detached, NULL) == EINVAL);
    PCT_CHECK(pct_create(&other, NULL, meet, NULL) == 0 && pct_detach(other) == 0);
}

static void *sleep_at_word(void *nothing) {
    pct_store(&asleep, 1);
    int woken = pct_futex_wait(&word, 0);
    PCT_CHECK(woken == 0 || (woken == EAGAIN && pct_load(&word) == 1));
    return nothing;
}

static void use_futex(void) {
    pct_thread_t sleeper;
    pct_barrier_t none;
    PCT_CHECK(pct_futex_wait(&word, 5) == EAGAIN && pct_futex_wake(&word, 9) == 0);
    PCT_CHECK(pct_create(&sleeper, NULL, sleep_at_word, NULL) == 0);
    while (!pct_load(&asleep)) pct_yield();
    pct_store(&word, 1u);
    PCT_CHECK(pct_futex_wake(&word, 2) <= 1 && pct_join(sleeper, NULL) == 0);
    PCT_CHECK(pct_barrier_init(&none, NULL, 0) == EINVAL && pct_mutex_init(&normal, 3) == EINVAL);
}

static void test(void) {
    use_mutexes();
    use_semaphore();
    PCT_CHECK(pct_rwlock_rdlock(&lock) == 0 && pct_once(&once, make) == 0);
    use_threads();
    use_detached();
    use_futex();
    PCT_CHECK(pct_rwlock_unlock(&lock) == 0 && pct_rwlock_timedwrlock(&lock, &never) == 0);
    PCT_CHECK(pct_rwlock_tryrdlock(&lock) == EBUSY && pct_rwlock_unlock(&lock) == 0);
    PCT_CHECK(pct_rwlock_timedrdlock(&lock, &never) == 0 && pct_rwlock_unlock(&lock) == 0);
    PCT_CHECK(made == 1 && pct_mutex_unlock(&checked) == 0);
    pct_step();
}

static void reset(void) { is_told = made = serial = asleep = word = 0; }

int main(int count, char **words) {
    pct_options(count, words);
    pct_reset(reset);
    return pct_check(test);
}
