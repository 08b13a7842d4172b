/*
 * Conditions, semaphores, barriers, and what is done once: who waits does so at its own semaphore
 * of the book, until another thread's step wakes it.
 */
#include "stand.h"

#include <errno.h>
#include <semaphore.h>

/* --- Conditions: a signal wakes who has waited longest (with --chaos anybody), and no wait ends by
   itself but with --chaos --- */

static int await_signal(const volatile void *cond, const volatile void *mutex, bool is_timed,
                        uint64_t deadline) {
    bool is_chaotic = shared->plan.is_chaotic;
    begin_wait(is_timed ? WAITS_FOR_TIME : WAITS_IN_QUEUE,
               cond); /* before any other thread's step */
    tell_unlocked(mutex);
    if (is_timed) wait_until(deadline);
    if (is_chaotic && !mine()->is_woken && mine()->early_ends < 2 && draw_below(4) == 0)
        mine()->is_early = true;
    bool is_late = finish_wait("waits for a signal", cond);
    return is_timed && is_late ? ETIMEDOUT : 0;
}

int cond_wait_at(const volatile void *cond, const volatile void *mutex,
                 const struct timespec *until, clockid_t clock) {
    cancel_point();
    uint64_t deadline = until ? deadline_of(until, clock) : 0;
    uint32_t depth = let_go(mutex, "wait");
    int result = await_signal(cond, mutex, until != NULL, deadline);
    regain(mutex, depth, "regain");
    cancel_point();
    return result;
}

void cond_signal_at(const volatile void *cond) {
    step("signal", cond);
    uint32_t seat = waiter_at(cond, 0);
    if (seat != NOBODY) wake(seat, "signal wakes");
}

void cond_broadcast_at(const volatile void *cond) {
    step("broadcast", cond);
    wake_all(cond, "broadcast wakes");
}

EXPORT int pthread_cond_wait(pthread_cond_t *cond, pthread_mutex_t *mutex) {
    ENTER();
    return is_tested() ? cond_wait_at(cond, mutex, NULL, 0) : REAL(pthread_cond_wait)(cond, mutex);
}
/* The clock of a condition with an attribute stands in it. */
EXPORT int pthread_cond_timedwait(pthread_cond_t *cond, pthread_mutex_t *mutex,
                                  const struct timespec *until) {
    ENTER();
    if (!is_tested()) return REAL(pthread_cond_timedwait)(cond, mutex, until);
    return cond_wait_at(cond, mutex, until, CLOCK_REALTIME);
}
EXPORT int pthread_cond_clockwait(pthread_cond_t *cond, pthread_mutex_t *mutex, clockid_t clock,
                                  const struct timespec *until) {
    ENTER();
    if (!is_tested()) return REAL(pthread_cond_clockwait)(cond, mutex, clock, until);
    return cond_wait_at(cond, mutex, until, clock);
}
EXPORT int pthread_cond_signal(pthread_cond_t *cond) {
    ENTER();
    if (!is_tested()) return REAL(pthread_cond_signal)(cond);
    cond_signal_at(cond);
    return 0;
}
EXPORT int pthread_cond_broadcast(pthread_cond_t *cond) {
    ENTER();
    if (!is_tested()) return REAL(pthread_cond_broadcast)(cond);
    cond_broadcast_at(cond);
    return 0;
}
/* libc's waits until nobody is left in it, and nobody really waits there. */
EXPORT int pthread_cond_destroy(pthread_cond_t *cond) {
    return is_tested() ? 0 : REAL(pthread_cond_destroy)(cond);
}

/* --- Semaphores --- */

static Object *semaphore_at(sem_t *sem) {
    Object *object = object_at(sem);
    int value = 0;
    if (!object->is_known) {
        REAL(sem_getvalue)(sem, &value);
        object->value = value;
        object->is_known = true;
    }
    return object;
}

static int fail_by(int number) {
    errno = number;
    return -1;
}

static int lower(sem_t *sem, bool is_try, const struct timespec *until, clockid_t clock) {
    cancel_point();
    step(is_try ? "sem trywait" : "sem wait", sem);
    Object *object = semaphore_at(sem);
    if (object->value > 0) {
        object->value--;
        acquire(sem);
        return 0;
    }
    if (is_try) {
        looked(0, 3);
        return fail_by(EAGAIN);
    }
    begin_wait(until ? WAITS_FOR_TIME : WAITS_IN_QUEUE, sem);
    if (until) wait_until(deadline_of(until, clock));
    if (finish_wait("waits at a semaphore", sem)) return fail_by(ETIMEDOUT);
    cancel_point();
    acquire(sem);
    return 0;
}

EXPORT int sem_init(sem_t *sem, int is_shared, unsigned value) {
    int refused = REAL(sem_init)(sem, is_shared, value);
    if (is_tested() && !refused) {
        object_at(sem)->value = value;
        object_at(sem)->is_known = true;
    }
    return refused;
}
EXPORT int sem_wait(sem_t *sem) {
    ENTER();
    return is_tested() ? lower(sem, false, NULL, 0) : REAL(sem_wait)(sem);
}
EXPORT int sem_trywait(sem_t *sem) {
    ENTER();
    return is_tested() ? lower(sem, true, NULL, 0) : REAL(sem_trywait)(sem);
}
EXPORT int sem_timedwait(sem_t *sem, const struct timespec *until) {
    ENTER();
    return is_tested() ? lower(sem, false, until, CLOCK_REALTIME) : REAL(sem_timedwait)(sem, until);
}
EXPORT int sem_clockwait(sem_t *sem, clockid_t clock, const struct timespec *until) {
    ENTER();
    return is_tested() ? lower(sem, false, until, clock) : REAL(sem_clockwait)(sem, clock, until);
}
EXPORT int sem_post(sem_t *sem) {
    ENTER();
    if (!is_tested()) return REAL(sem_post)(sem);
    step("sem post", sem);
    release(sem);
    uint32_t seat = waiter_at(sem, 0);
    if (seat != NOBODY) {
        wake(seat, "post wakes");
        return 0;
    }
    semaphore_at(sem)->value++;
    changed();
    return 0;
}
EXPORT int sem_getvalue(sem_t *sem, int *value) {
    ENTER();
    if (!is_tested()) return REAL(sem_getvalue)(sem, value);
    step("sem getvalue", sem);
    *value = (int)semaphore_at(sem)->value;
    looked((uint64_t)*value, 3);
    return 0;
}

/* --- Barriers --- */

EXPORT int pthread_barrier_init(pthread_barrier_t *barrier, const pthread_barrierattr_t *attr,
                                unsigned count) {
    int refused = REAL(pthread_barrier_init)(barrier, attr, count);
    if (is_tested() && !refused) {
        object_at(barrier)->size = count;
        object_at(barrier)->arrived = 0;
    }
    return refused;
}
EXPORT int pthread_barrier_wait(pthread_barrier_t *barrier) {
    ENTER();
    if (!is_tested()) return REAL(pthread_barrier_wait)(barrier);
    step("arrives at a barrier", barrier);
    release(barrier);
    Object *object = object_at(barrier);
    if (++object->arrived < object->size) {
        begin_wait(WAITS_IN_QUEUE, barrier);
        finish_wait("waits at a barrier", barrier);
        acquire(barrier);
        return 0;
    }
    object->arrived = 0;
    acquire(barrier);
    wake_all(barrier, "the barrier opens for");
    return PTHREAD_BARRIER_SERIAL_THREAD;
}

/* --- Once, and statics in functions --- */

enum { ONCE_NEW, ONCE_RUNS, ONCE_DONE = 2 }; /* the last one is glibc's, too */

typedef struct OnceCall {
    Object *object;
    bool is_done;
} OnceCall;

/* At the end of the function, and where it ends by an exception or is cancelled: then another call makes it. What
   it did is released before anybody sees that it is done. */
static void end_once(OnceCall *call) {
    volatile void *once = call->object->at;
    step("once is done", once);
    release(once);
    call->object->value = call->is_done ? ONCE_DONE : ONCE_NEW;
    if (call->is_done) *(volatile int *)once = ONCE_DONE; /* for a process that is forked */
    wake_all(once, "once is done for");
    changed();
}

static void make_once(Object *object, void (*function)(void)) {
    OnceCall call __attribute__((cleanup(end_once))) = { object, false };
    uintptr_t pc = self.pc;
    object->value = ONCE_RUNS;
    function();
    self.pc = pc;
    call.is_done = true;
}

int once_at(volatile void *once, void (*function)(void)) {
    step("once", once);
    Object *object = object_at(once);
    if (*(volatile int *)once == ONCE_DONE) object->value = ONCE_DONE; /* perhaps before the run */
    while (object->value == ONCE_RUNS) {
        begin_wait(WAITS_IN_QUEUE, once);
        finish_wait("waits for a once", once);
    }
    if (object->value == ONCE_DONE) acquire(once);
    else make_once(object, function);
    return 0;
}

EXPORT int pthread_once(pthread_once_t *once, void (*function)(void)) {
    ENTER();
    return is_tested() ? once_at(once, function) : REAL(pthread_once)(once, function);
}

/* By the ABI of C++: the first byte says that it is done; the second one is the runtime's. */
typedef unsigned char Guard;

EXPORT int __cxa_guard_acquire(Guard *guard) {
    ENTER();
    while (!is_tested()) { /* as libstdc++'s: by the second byte */
        if (__atomic_load_n(&guard[0], __ATOMIC_ACQUIRE)) return 0;
        if (!__atomic_exchange_n(&guard[1], 1, __ATOMIC_ACQUIRE))
            return !__atomic_load_n(&guard[0], __ATOMIC_ACQUIRE);
        REAL(sched_yield)();
    }
    if (guard[0]) {
        acquire(guard);
        return 0;
    }
    step("static", guard);
    while (!guard[0] && guard[1]) {
        begin_wait(WAITS_IN_QUEUE, guard);
        finish_wait("waits for a static", guard);
    }
    if (guard[0]) {
        acquire(guard);
        return 0;
    }
    guard[1] = 1;
    return 1;
}

static void end_guard(Guard *guard, bool is_done) {
    if (is_tested()) {
        step(is_done ? "static is made" : "static isn't made", guard);
        release(guard);
    }
    if (is_done) __atomic_store_n(&guard[0], 1, __ATOMIC_RELEASE);
    __atomic_store_n(&guard[1], 0, __ATOMIC_RELEASE);
    if (is_tested()) wake_all(guard, "static is made for");
}
EXPORT void __cxa_guard_release(Guard *guard) {
    ENTER();
    end_guard(guard, true);
}
EXPORT void __cxa_guard_abort(Guard *guard) {
    ENTER();
    end_guard(guard, false);
}
