// A file that knows nothing of pct: compiled with -include pct_pthread.h.
#include <pthread.h>
#include <semaphore.h>
#include <stddef.h>
#include <unistd.h>

static pthread_mutex_t guard = PTHREAD_MUTEX_INITIALIZER;
static pthread_cond_t changed = PTHREAD_COND_INITIALIZER;
static pthread_rwlock_t lock = PTHREAD_RWLOCK_INITIALIZER;
static pthread_once_t once = PTHREAD_ONCE_INIT;
static pthread_mutex_t recursive;
static pthread_barrier_t both;
static sem_t places;
static int jobs, done;

static void make(void) {
    pthread_mutexattr_t attributes;
    pthread_mutexattr_init(&attributes);
    pthread_mutexattr_settype(&attributes, PTHREAD_MUTEX_RECURSIVE);
    pthread_mutex_init(&recursive, &attributes);
    pthread_mutexattr_destroy(&attributes);
    pthread_barrier_init(&both, NULL, 2);
    sem_init(&places, 0, 1);
    jobs = done = 0;
}

static void *work(void *argument) {
    pthread_once(&once, make);
    pthread_mutex_lock(&guard);
    while (jobs == 0)
        pthread_cond_wait(&changed, &guard);
    jobs--;
    pthread_mutex_unlock(&guard);
    sem_wait(&places);
    pthread_rwlock_wrlock(&lock);
    done++;
    pthread_rwlock_unlock(&lock);
    sem_post(&places);
    pthread_barrier_wait(&both);
    pthread_exit(argument);
}

/* What a test calls: whether both jobs were done, once each. */
int does_both(void);
int does_both(void) {
    pthread_t first, second;
    void *value = NULL;
    pthread_once(&once, make);
    pthread_create(&first, NULL, work, NULL);
    pthread_create(&second, NULL, work, &done);
    pthread_mutex_lock(&recursive);
    pthread_mutex_lock(&recursive);
    pthread_mutex_unlock(&recursive);
    pthread_mutex_unlock(&recursive);
    for (int i = 0; i < 2; i++) {
        usleep(1000); /* nobody else may be able to go on */
        pthread_mutex_lock(&guard);
        jobs++;
        pthread_cond_signal(&changed);
        pthread_mutex_unlock(&guard);
    }
    pthread_join(first, NULL);
    pthread_join(second, &value);
    return done == 2 && value == &done && !pthread_equal(first, second);
}
