/* Each call of POSIX threads, semaphores and C11 threads that the runtime stands before, once, with what it
   answers. */
#include <assert.h>
#include <errno.h>
#include <pthread.h>
#include <sched.h>
#include <semaphore.h>
#include <stdio.h>
#include <sys/time.h>
#include <threads.h>
#include <time.h>
#include <unistd.h>

static struct timespec soon(clockid_t clock) {
    struct timespec until;
    clock_gettime(clock, &until);
    until.tv_sec++;
    return until;
}

static void *nothing(void *argument) { return argument; }

static pthread_mutex_t held = PTHREAD_MUTEX_INITIALIZER;
static pthread_rwlock_t read_held = PTHREAD_RWLOCK_INITIALIZER;

/* While main holds both: every form that doesn't wait for ever is refused. */
static void *refused(void *argument) {
    struct timespec real = soon(CLOCK_REALTIME), steady = soon(CLOCK_MONOTONIC);
    assert(pthread_mutex_trylock(&held) == EBUSY);
    assert(pthread_mutex_timedlock(&held, &real) == ETIMEDOUT);
    assert(pthread_mutex_clocklock(&held, CLOCK_MONOTONIC, &steady) == ETIMEDOUT);
    assert(pthread_rwlock_trywrlock(&read_held) == EBUSY);
    real = soon(CLOCK_REALTIME);
    assert(pthread_rwlock_timedwrlock(&read_held, &real) == ETIMEDOUT);
    assert(pthread_rwlock_tryrdlock(&read_held) == 0 && pthread_rwlock_unlock(&read_held) == 0);
    return argument;
}

static void mutexes(void) {
    pthread_mutexattr_t attr;
    pthread_mutex_t mutex;
    pthread_mutexattr_init(&attr);
    pthread_mutexattr_settype(&attr, PTHREAD_MUTEX_RECURSIVE);
    pthread_mutex_init(&mutex, &attr);
    assert(pthread_mutex_lock(&mutex) == 0 && pthread_mutex_trylock(&mutex) == 0);
    assert(pthread_mutex_unlock(&mutex) == 0 && pthread_mutex_unlock(&mutex) == 0);
    assert(pthread_mutex_unlock(&mutex) == EPERM && pthread_mutex_destroy(&mutex) == 0);
    pthread_mutexattr_settype(&attr, PTHREAD_MUTEX_ERRORCHECK);
    pthread_mutex_init(&mutex, &attr);
    assert(pthread_mutex_lock(&mutex) == 0 && pthread_mutex_lock(&mutex) == EDEADLK);
    assert(pthread_mutex_unlock(&mutex) == 0 && pthread_mutex_unlock(&mutex) == EPERM);
    pthread_spinlock_t spin;
    pthread_spin_init(&spin, PTHREAD_PROCESS_PRIVATE);
    assert(pthread_spin_lock(&spin) == 0 && pthread_spin_trylock(&spin) == EBUSY && pthread_spin_unlock(&spin) == 0);
}

static void others(void) {
    pthread_t thread;
    pthread_mutex_lock(&held);
    pthread_rwlock_rdlock(&read_held);
    pthread_create(&thread, NULL, refused, NULL);
    pthread_join(thread, NULL);
    pthread_mutex_unlock(&held);
    pthread_rwlock_unlock(&read_held);
    assert(pthread_rwlock_wrlock(&read_held) == 0 && pthread_rwlock_wrlock(&read_held) == EDEADLK);
    pthread_rwlock_unlock(&read_held);
    struct timespec real = soon(CLOCK_REALTIME);
    assert(pthread_rwlock_timedrdlock(&read_held, &real) == 0 && pthread_rwlock_unlock(&read_held) == 0);
}

static void conditions(void) {
    pthread_cond_t cond = PTHREAD_COND_INITIALIZER;
    struct timespec real = soon(CLOCK_REALTIME), steady = soon(CLOCK_MONOTONIC);
    pthread_mutex_lock(&held);
    assert(pthread_cond_timedwait(&cond, &held, &real) == ETIMEDOUT);
    assert(pthread_cond_clockwait(&cond, &held, CLOCK_MONOTONIC, &steady) == ETIMEDOUT);
    pthread_mutex_unlock(&held);
    assert(pthread_cond_signal(&cond) == 0 && pthread_cond_broadcast(&cond) == 0 && pthread_cond_destroy(&cond) == 0);
}

static void semaphores(void) {
    sem_t sem;
    int value = 0;
    struct timespec real = soon(CLOCK_REALTIME);
    assert(sem_init(&sem, 0, 1) == 0 && sem_wait(&sem) == 0);
    assert(sem_trywait(&sem) == -1 && errno == EAGAIN);
    assert(sem_timedwait(&sem, &real) == -1 && errno == ETIMEDOUT);
    assert(sem_post(&sem) == 0 && sem_getvalue(&sem, &value) == 0 && value == 1);
}

static void threads(void) {
    pthread_t thread;
    void *answer = NULL;
    int number = 7;
    struct timespec real = soon(CLOCK_REALTIME);
    real.tv_sec += 100;
    pthread_create(&thread, NULL, nothing, &number);
    assert(pthread_join(thread, &answer) == 0 && answer == &number);
    pthread_create(&thread, NULL, nothing, &number);
    assert(pthread_timedjoin_np(thread, &answer, &real) == 0 && answer == &number);
    pthread_create(&thread, NULL, nothing, NULL);
    while (pthread_tryjoin_np(thread, &answer) == EBUSY) sched_yield();
    pthread_create(&thread, NULL, nothing, NULL);
    assert(pthread_detach(thread) == 0 && pthread_join(pthread_self(), NULL) == EDEADLK);
}

static void time_passes(void) {
    struct timespec before, after, while_ = { 2, 0 };
    struct timeval now;
    clock_gettime(CLOCK_MONOTONIC, &before);
    assert(nanosleep(&while_, NULL) == 0 && usleep(1000) == 0 && sleep(1) == 0);
    assert(clock_nanosleep(CLOCK_MONOTONIC, 0, &while_, NULL) == 0);
    clock_gettime(CLOCK_MONOTONIC, &after);
    assert(after.tv_sec - before.tv_sec >= 5 && gettimeofday(&now, NULL) == 0 && time(NULL) > 0);
}

static int c11_value(void *argument) { return *(int *)argument; }
static once_flag once = ONCE_FLAG_INIT;
static int inits;
static void init(void) { inits++; }

static void c11(void) {
    thrd_t thread;
    int number = 7, answer = 0;
    mtx_t mutex;
    cnd_t cond;
    struct timespec until;
    assert(thrd_create(&thread, c11_value, &number) == thrd_success);
    assert(thrd_join(thread, &answer) == thrd_success && answer == 7);
    assert(mtx_init(&mutex, mtx_timed | mtx_recursive) == thrd_success && cnd_init(&cond) == thrd_success);
    assert(mtx_lock(&mutex) == thrd_success && mtx_trylock(&mutex) == thrd_success && mtx_unlock(&mutex) == thrd_success);
    timespec_get(&until, TIME_UTC);
    until.tv_sec++;
    assert(cnd_timedwait(&cond, &mutex, &until) == thrd_timedout && mtx_unlock(&mutex) == thrd_success);
    assert(cnd_signal(&cond) == thrd_success && cnd_broadcast(&cond) == thrd_success);
    call_once(&once, init);
    call_once(&once, init);
    assert(inits == 1);
    cnd_destroy(&cond);
    mtx_destroy(&mutex);
}

int main(void) {
    mutexes();
    others();
    conditions();
    semaphores();
    threads();
    time_passes();
    c11();
    flockfile(stdout);
    assert(ftrylockfile(stdout) == 0);
    funlockfile(stdout);
    funlockfile(stdout);
    return 0;
}
