/*
 * C11's <threads.h> as it stands under the PCT scheduler: a file that uses it is compiled with
 *
 *     cc -include pct_threads.h -c pool.c
 *
 * and each of its calls is the one of pct_test.h. Timed forms never time out.
 */
#ifndef PCT_THREADS_H
#define PCT_THREADS_H

#include <stdlib.h>
#include <threads.h>

#include "pct_test.h"

/* What a thread of <threads.h> is to do, whose result is an int. */
typedef struct PctThrd {
    int (*function)(void *);
    void *argument;
} PctThrd;

static inline void *pct_thrd_body(void *call) {
    PctThrd thrd = *(PctThrd *)call;
    free(call);
    return (void *)(intptr_t)thrd.function(thrd.argument);
}

static inline int pct_thrd_create_at(pct_thread_t *thread, int (*function)(void *), void *argument,
                                     PctPlace place) {
    PctThrd *call = (PctThrd *)malloc(sizeof *call);
    if (!call) return thrd_nomem;
    *call = (PctThrd){ function, argument };
    return pct_create_at(thread, NULL, pct_thrd_body, call, place) ? thrd_error : thrd_success;
}

static inline int pct_thrd_join_at(pct_thread_t thread, int *result, PctPlace place) {
    void *value = NULL;
    int status = pct_join_at(thread, &value, place);
    if (result) *result = (int)(intptr_t)value;
    return status ? thrd_error : thrd_success;
}

/* A number of <errno.h> as one of thrd_success and so on. */
static inline int pct_thrd_of(int status) {
    return status == 0 ? thrd_success : status == EBUSY ? thrd_busy : thrd_error;
}

#define thrd_t pct_thread_t
#define thrd_create(thread, function, argument) \
    pct_thrd_create_at((thread), (function), (argument), PCT_OF(function))
#define thrd_join(thread, result) pct_thrd_join_at((thread), (result), PCT_OF(thread))
#define thrd_detach(thread) pct_thrd_of(pct_detach(thread))
#define thrd_current() pct_self()
#define thrd_equal(one, other) ((one) == (other))
#define thrd_exit(result) pct_exit((void *)(intptr_t)(result))
#define thrd_yield() pct_yield()
#define thrd_sleep(time, rest) ((void)(time), (void)(rest), pct_slept_at(PCT_OF()))

#define mtx_t pct_mutex_t
#define mtx_init(mutex, type) \
    pct_thrd_of( \
        (pct_mutex_init)((mutex), (type)&mtx_recursive ? PCT_MUTEX_RECURSIVE : PCT_MUTEX_NORMAL))
#define mtx_destroy(mutex) ((void)pct_mutex_destroy(mutex))
#define mtx_lock(mutex) pct_thrd_of(pct_mutex_lock(mutex))
#define mtx_timedlock(mutex, until) ((void)(until), mtx_lock(mutex))
#define mtx_trylock(mutex) pct_thrd_of(pct_mutex_trylock(mutex))
#define mtx_unlock(mutex) pct_thrd_of(pct_mutex_unlock(mutex))

#define cnd_t pct_cond_t
#define cnd_init(cond) pct_thrd_of(pct_cond_init(cond, NULL))
#define cnd_destroy(cond) ((void)pct_cond_destroy(cond))
#define cnd_wait(cond, mutex) pct_thrd_of(pct_cond_wait(cond, mutex))
#define cnd_timedwait(cond, mutex, until) ((void)(until), cnd_wait(cond, mutex))
#define cnd_signal(cond) pct_thrd_of(pct_cond_signal(cond))
#define cnd_broadcast(cond) pct_thrd_of(pct_cond_broadcast(cond))

#define once_flag pct_once_t
#undef ONCE_FLAG_INIT
#define ONCE_FLAG_INIT PCT_ONCE_INIT
#define call_once(once, function) ((void)pct_once(once, function))

#endif
