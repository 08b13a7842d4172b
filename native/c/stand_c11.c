/* The threads of C11, whose calls glibc doesn't make by POSIX's names. */
#include "stand.h"

#include <errno.h>
#include <stdlib.h>
#include <threads.h>

static int as_c11(int error) {
    switch (error) {
    case 0: return thrd_success;
    case EBUSY: return thrd_busy;
    case ETIMEDOUT: return thrd_timedout;
    case ENOMEM: return thrd_nomem;
    default: return thrd_error;
    }
}

/* C11's function answers an int. */
typedef struct Start {
    thrd_start_t function;
    void *argument;
} Start;

static void *start(void *argument) {
    Start given = *(Start *)argument;
    free(argument);
    return (void *)(intptr_t)given.function(given.argument);
}

EXPORT int thrd_create(thrd_t *thread, thrd_start_t function, void *argument) {
    ENTER();
    if (!is_tested()) return REAL(thrd_create)(thread, function, argument);
    Start *given = malloc(sizeof *given);
    if (!given) return thrd_nomem;
    *given = (Start){ function, argument };
    uint32_t seat = seat_count();
    int result = as_c11(pthread_create(thread, NULL, start, given));
    if (seat < MOST_SEATS) shared->functions[seat] = (uintptr_t)function;
    return result;
}
EXPORT int thrd_join(thrd_t thread, int *value) {
    ENTER();
    if (!is_tested()) return REAL(thrd_join)(thread, value);
    void *answer = NULL;
    int error = pthread_join(thread, &answer);
    if (value) *value = (int)(intptr_t)answer;
    return as_c11(error);
}
EXPORT int thrd_detach(thrd_t thread) {
    ENTER();
    return is_tested() ? as_c11(pthread_detach(thread)) : REAL(thrd_detach)(thread);
}
EXPORT void thrd_exit(int value) {
    if (!is_tested()) REAL(thrd_exit)(value);
    pthread_exit((void *)(intptr_t)value);
}

static unsigned kind_of(mtx_t *mutex) {
    return (unsigned)((pthread_mutex_t *)mutex)->__data.__kind & 3U;
}

EXPORT int mtx_lock(mtx_t *mutex) {
    ENTER();
    return is_tested() ? as_c11(lock_at(mutex, kind_of(mutex), false, "lock"))
                       : REAL(mtx_lock)(mutex);
}
EXPORT int mtx_trylock(mtx_t *mutex) {
    ENTER();
    return is_tested() ? as_c11(lock_at(mutex, kind_of(mutex), true, "trylock"))
                       : REAL(mtx_trylock)(mutex);
}
EXPORT int mtx_timedlock(mtx_t *mutex, const struct timespec *until) {
    ENTER();
    if (!is_tested()) return REAL(mtx_timedlock)(mutex, until);
    return as_c11(lock_until(mutex, kind_of(mutex), until, CLOCK_REALTIME, "timedlock"));
}
EXPORT int mtx_unlock(mtx_t *mutex) {
    ENTER();
    if (!is_tested()) return REAL(mtx_unlock)(mutex);
    int error = unlock_at(mutex, kind_of(mutex), "unlock");
    if (!error) tell_unlocked(mutex);
    return as_c11(error);
}
EXPORT void mtx_destroy(mtx_t *mutex) {
    if (is_tested()) forget_lock(mutex);
    else REAL(mtx_destroy)(mutex);
}

EXPORT int cnd_wait(cnd_t *cond, mtx_t *mutex) {
    ENTER();
    return is_tested() ? as_c11(cond_wait_at(cond, mutex, NULL, 0)) : REAL(cnd_wait)(cond, mutex);
}
EXPORT int cnd_timedwait(cnd_t *restrict cond, mtx_t *restrict mutex,
                         const struct timespec *restrict until) {
    ENTER();
    if (!is_tested()) return REAL(cnd_timedwait)(cond, mutex, until);
    return as_c11(cond_wait_at(cond, mutex, until, CLOCK_REALTIME));
}
EXPORT int cnd_signal(cnd_t *cond) {
    ENTER();
    if (!is_tested()) return REAL(cnd_signal)(cond);
    cond_signal_at(cond);
    return thrd_success;
}
EXPORT int cnd_broadcast(cnd_t *cond) {
    ENTER();
    if (!is_tested()) return REAL(cnd_broadcast)(cond);
    cond_broadcast_at(cond);
    return thrd_success;
}
EXPORT void cnd_destroy(cnd_t *cond) {
    if (!is_tested()) REAL(cnd_destroy)(cond);
}
EXPORT void call_once(once_flag *once, void (*function)(void)) {
    ENTER();
    if (is_tested()) once_at(once, function);
    else REAL(call_once)(once, function);
}
