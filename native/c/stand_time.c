/* Sleeping, yielding, clocks, and the futexes on which C++'s waits stand. A clock moves a
   microsecond when it is read, and to the end of each wait; a sleep is a wait for a time. */
#include "stand.h"

#include <errno.h>
#include <linux/futex.h>
#include <sched.h>
#include <stdarg.h>
#include <sys/syscall.h>
#include <sys/time.h>
#include <unistd.h>

#define CLOCK_STEP 1000U /* nanoseconds */

uint64_t nanoseconds(const struct timespec *time) {
    return (uint64_t)time->tv_sec * NANOSECONDS + (uint64_t)time->tv_nsec;
}

/* All clocks of the program are one. */
uint64_t deadline_of(const struct timespec *until, clockid_t clock) {
    (void)clock;
    return nanoseconds(until);
}

static int sleep_for(uint64_t time, const char *what) {
    cancel_point();
    if (is_alone()) {
        pass_time(time);
        return 0;
    }
    begin_wait(WAITS_FOR_TIME, NULL);
    wait_until(virtual_now() + time);
    finish_wait(what, NULL);
    cancel_point();
    return 0;
}

static void yield(void) {
    step("yield", NULL);
    if (!is_alone()) looked(0, 2);
}

EXPORT int sched_yield(void) {
    ENTER();
    if (!is_tested()) return REAL(sched_yield)();
    yield();
    return 0;
}
EXPORT int usleep(useconds_t time) {
    ENTER();
    return is_tested() ? sleep_for((uint64_t)time * 1000, "sleeps") : REAL(usleep)(time);
}
EXPORT unsigned sleep(unsigned seconds) {
    ENTER();
    return is_tested() ? (unsigned)sleep_for((uint64_t)seconds * NANOSECONDS, "sleeps")
                       : REAL(sleep)(seconds);
}
EXPORT int nanosleep(const struct timespec *time, struct timespec *left) {
    ENTER();
    return is_tested() ? sleep_for(nanoseconds(time), "sleeps") : REAL(nanosleep)(time, left);
}
EXPORT int clock_nanosleep(clockid_t clock, int flags, const struct timespec *time,
                           struct timespec *left) {
    ENTER();
    if (!is_tested()) return REAL(clock_nanosleep)(clock, flags, time, left);
    uint64_t until = nanoseconds(time), now = virtual_now();
    if (!(flags & TIMER_ABSTIME)) return sleep_for(until, "sleeps");
    return sleep_for(until > now ? until - now : 0, "sleeps");
}
EXPORT int thrd_sleep(const struct timespec *time, struct timespec *left) {
    ENTER();
    return nanosleep(time, left);
}
EXPORT void thrd_yield(void) {
    ENTER();
    sched_yield();
}

/* --- Clocks --- */

static uint64_t read_clock(void) {
    pass_time(CLOCK_STEP);
    return virtual_now();
}

EXPORT int clock_gettime(clockid_t clock, struct timespec *time) {
    if (!is_tested()) return REAL(clock_gettime)(clock, time);
    uint64_t now = read_clock();
    *time = (struct timespec){ .tv_sec = (time_t)(now / NANOSECONDS),
                               .tv_nsec = (long)(now % NANOSECONDS) };
    return 0;
}
EXPORT int gettimeofday(struct timeval *restrict time, void *restrict zone) {
    if (!is_tested()) return REAL(gettimeofday)(time, zone);
    uint64_t now = read_clock();
    *time = (struct timeval){ .tv_sec = (time_t)(now / NANOSECONDS),
                              .tv_usec = (suseconds_t)(now % NANOSECONDS / 1000) };
    return 0;
}
EXPORT time_t time(time_t *to) {
    if (!is_tested()) return REAL(time)(to);
    time_t now = (time_t)(read_clock() / NANOSECONDS);
    if (to) *to = now;
    return now;
}
EXPORT int timespec_get(struct timespec *time, int base) {
    if (!is_tested()) return REAL(timespec_get)(time, base);
    clock_gettime(CLOCK_REALTIME, time);
    return base;
}

/* A run is kept on one processor, which the program doesn't see. */
EXPORT int get_nprocs(void) { return is_tested() ? 4 : REAL(get_nprocs)(); }

/* --- Futexes --- */

typedef struct FutexCall {
    volatile uint32_t *at;
    int operation;
    uint32_t value, mask;
    const struct timespec *until;
} FutexCall;

static long fail_by(int number) {
    errno = number;
    return -1;
}

static long futex_wait(const FutexCall *call, bool is_relative) {
    step("futex wait", call->at);
    if (__atomic_load_n(call->at, __ATOMIC_RELAXED) != call->value) return fail_by(EAGAIN);
    begin_wait(call->until ? WAITS_FOR_TIME : WAITS_IN_QUEUE, call->at);
    mine()->mask = call->mask;
    if (call->until) wait_until(nanoseconds(call->until) + (is_relative ? virtual_now() : 0));
    if (finish_wait("waits at a futex", call->at)) return fail_by(ETIMEDOUT);
    return 0;
}

static long futex_wake(const FutexCall *call) {
    step("futex wake", call->at);
    long count = 0;
    for (; count < (long)call->value; count++) {
        uint32_t seat = waiter_at(call->at, call->mask);
        if (seat == NOBODY) break;
        wake(seat, "futex wakes");
    }
    return count;
}

static long call_futex(const FutexCall *call) {
    switch (call->operation) {
    case FUTEX_WAIT: return futex_wait(call, true);
    case FUTEX_WAIT_BITSET: return futex_wait(call, false);
    case FUTEX_WAKE:
    case FUTEX_WAKE_BITSET: return futex_wake(call);
    default: end_run(REFUSED, "the futex operation %d isn't known", call->operation);
    }
}

static bool has_mask(int operation) {
    return operation == FUTEX_WAIT_BITSET || operation == FUTEX_WAKE_BITSET;
}

EXPORT long syscall(long number, ...) {
    ENTER();
    long word[6];
    va_list words;
    va_start(words, number);
    for (int i = 0; i < 6; i++) word[i] = va_arg(words, long);
    va_end(words);
    if (number != SYS_futex || !is_tested())
        return REAL(syscall)(number, word[0], word[1], word[2], word[3], word[4], word[5]);
    int operation = (int)word[1] & FUTEX_CMD_MASK;
    FutexCall call = { .at = (volatile uint32_t *)word[0],
                       .operation = operation,
                       .value = (uint32_t)word[2],
                       .mask = has_mask(operation) ? (uint32_t)word[5] : UINT32_MAX };
    if (operation == FUTEX_WAIT || operation == FUTEX_WAIT_BITSET)
        call.until = (const struct timespec *)word[3];
    return call_futex(&call);
}
