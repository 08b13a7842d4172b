/*
 * POSIX threads as they stand under the PCT scheduler: a file that uses them is compiled with
 *
 *     cc -include pct_pthread.h -c server.c
 *
 * and each of its calls on threads, mutexes, conditions, semaphores, barriers, read-write locks and
 * sleeps is the one of pct_test.h. pct_test.c itself is compiled without it. What the file's own
 * feature macros switch on, as _GNU_SOURCE, is given by -D. Cancellation, named semaphores and
 * handles of threads past pct_thread_t aren't there: the compiler refuses them.
 */
#ifndef PCT_PTHREAD_H
#define PCT_PTHREAD_H

#include <pthread.h>
#include <sched.h>
#include <semaphore.h>
#include <time.h>
#include <unistd.h>

#include "pct_test.h"

#define pthread_t pct_thread_t
#define pthread_create(thread, attr, function, argument) \
    pct_create(thread, attr, function, argument)
#define pthread_join(thread, value) pct_join(thread, value)
#define pthread_detach(thread) pct_detach(thread)
#define pthread_self() pct_self()
#define pthread_exit(value) pct_exit(value)
#define pthread_equal(one, other) ((one) == (other))
#define pthread_cancel(thread) pct_has_no_pthread_cancel(thread)
#define sched_yield() pct_yielded_at(PCT_OF())

#define pthread_mutex_t pct_mutex_t
#undef PTHREAD_MUTEX_INITIALIZER
#define PTHREAD_MUTEX_INITIALIZER PCT_MUTEX_INITIALIZER
#undef PTHREAD_RECURSIVE_MUTEX_INITIALIZER_NP
#define PTHREAD_RECURSIVE_MUTEX_INITIALIZER_NP PCT_RECURSIVE_MUTEX_INITIALIZER
#undef PTHREAD_ERRORCHECK_MUTEX_INITIALIZER_NP
#define PTHREAD_ERRORCHECK_MUTEX_INITIALIZER_NP PCT_ERRORCHECK_MUTEX_INITIALIZER
#define pthread_mutex_init(mutex, attr) pct_mutex_init_by(mutex, attr)
#define pthread_mutex_destroy(mutex) pct_mutex_destroy(mutex)
#define pthread_mutex_lock(mutex) pct_mutex_lock(mutex)
#define pthread_mutex_trylock(mutex) pct_mutex_trylock(mutex)
#define pthread_mutex_timedlock(mutex, until) pct_mutex_timedlock(mutex, until)
#define pthread_mutex_unlock(mutex) pct_mutex_unlock(mutex)

#define pthread_spinlock_t pct_mutex_t
#define pthread_spin_init(lock, is_shared) ((void)(is_shared), pct_mutex_init_by(lock, NULL))
#define pthread_spin_destroy(lock) pct_mutex_destroy(lock)
#define pthread_spin_lock(lock) pct_mutex_lock(lock)
#define pthread_spin_trylock(lock) pct_mutex_trylock(lock)
#define pthread_spin_unlock(lock) pct_mutex_unlock(lock)

#define pthread_cond_t pct_cond_t
#undef PTHREAD_COND_INITIALIZER
#define PTHREAD_COND_INITIALIZER PCT_COND_INITIALIZER
#define pthread_cond_init(cond, attr) pct_cond_init(cond, attr)
#define pthread_cond_destroy(cond) pct_cond_destroy(cond)
#define pthread_cond_wait(cond, mutex) pct_cond_wait(cond, mutex)
#define pthread_cond_timedwait(cond, mutex, until) pct_cond_timedwait(cond, mutex, until)
#define pthread_cond_signal(cond) pct_cond_signal(cond)
#define pthread_cond_broadcast(cond) pct_cond_broadcast(cond)

#define sem_t pct_sem_t
#define sem_init(sem, is_shared, value) pct_sem_init(sem, is_shared, value)
#define sem_destroy(sem) pct_sem_destroy(sem)
#define sem_wait(sem) pct_sem_wait(sem)
#define sem_trywait(sem) pct_sem_trywait(sem)
#define sem_timedwait(sem, until) pct_sem_timedwait(sem, until)
#define sem_post(sem) pct_sem_post(sem)
#define sem_getvalue(sem, value) pct_sem_getvalue(sem, value)

#define pthread_barrier_t pct_barrier_t
#undef PTHREAD_BARRIER_SERIAL_THREAD
#define PTHREAD_BARRIER_SERIAL_THREAD PCT_BARRIER_SERIAL_THREAD
#define pthread_barrier_init(barrier, attr, count) pct_barrier_init(barrier, attr, count)
#define pthread_barrier_destroy(barrier) pct_barrier_destroy(barrier)
#define pthread_barrier_wait(barrier) pct_barrier_wait(barrier)

#define pthread_rwlock_t pct_rwlock_t
#undef PTHREAD_RWLOCK_INITIALIZER
#define PTHREAD_RWLOCK_INITIALIZER PCT_RWLOCK_INITIALIZER
#define pthread_rwlock_init(lock, attr) pct_rwlock_init(lock, attr)
#define pthread_rwlock_destroy(lock) pct_rwlock_destroy(lock)
#define pthread_rwlock_rdlock(lock) pct_rwlock_rdlock(lock)
#define pthread_rwlock_wrlock(lock) pct_rwlock_wrlock(lock)
#define pthread_rwlock_tryrdlock(lock) pct_rwlock_tryrdlock(lock)
#define pthread_rwlock_trywrlock(lock) pct_rwlock_trywrlock(lock)
#define pthread_rwlock_timedrdlock(lock, until) pct_rwlock_timedrdlock(lock, until)
#define pthread_rwlock_timedwrlock(lock, until) pct_rwlock_timedwrlock(lock, until)
#define pthread_rwlock_unlock(lock) pct_rwlock_unlock(lock)

#define pthread_once_t pct_once_t
#undef PTHREAD_ONCE_INIT
#define PTHREAD_ONCE_INIT PCT_ONCE_INIT
#define pthread_once(once, function) pct_once(once, function)

#define sleep(seconds) ((void)(seconds), (unsigned)pct_slept_at(PCT_OF()))
#define usleep(microseconds) ((void)(microseconds), pct_slept_at(PCT_OF()))
#define nanosleep(time, rest) ((void)(time), (void)(rest), pct_slept_at(PCT_OF()))

#endif
