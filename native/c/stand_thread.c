/*
 * Threads: creating, joining, ending, cancelling, and signals that the program sends to one. A
 * thread has a seat from its creation to its end, and a join waits for the end of the thread, not
 * for the book's.
 */
#include "stand.h"

#include <errno.h>
#include <limits.h>
#include <signal.h>
#include <stdlib.h>
#include <string.h>
#include <sys/syscall.h>
#include <unistd.h>

/* What is left of a thread that has ended and wasn't joined, once its seat has another one. */
#define MOST_ENDED 65536
typedef struct Ended {
    pthread_t real;
    Clock clock;
    bool is_there;
} Ended;
static Ended *ended;
static uint32_t ended_count;
static pthread_key_t end_key;

static void leave(void *rounds);

static void begin_end_key(void) {
    pthread_setspecific(end_key, (void *)(uintptr_t)(PTHREAD_DESTRUCTOR_ITERATIONS - 1));
}

/* A process that the program forks is on its own. */
static void leave_fork(void) { self.seat = -1; }

void begin_threads(void) {
    Seat *s = mine();
    pthread_key_create(&end_key, leave);
    begin_end_key();
    s->real = pthread_self();
    s->stack_high = (uintptr_t)__builtin_frame_address(0) + 65536;
    s->stack_low = s->stack_high - (8U << 20);
    pthread_atfork(NULL, NULL, leave_fork);
}

static uint32_t seat_of(pthread_t thread) {
    for (uint32_t t = seat_count(); t-- > 0;)
        if (seats[t].is_live && pthread_equal(seats[t].real, thread)) return t;
    return NOBODY;
}

static Ended *ended_of(pthread_t thread) {
    for (uint32_t i = 0; i < ended_count; i++)
        if (ended[i].is_there && pthread_equal(ended[i].real, thread)) return &ended[i];
    return NULL;
}

/* --- The end: in the last round of the destructors of keys, so that those are the program's steps,
 * too --- */

static void keep_ended(const Seat *s) {
    static uint32_t room;
    if (ended_count == room) {
        room = room ? room * 2 : 64;
        ended = realloc(ended, room * sizeof *ended);
        if (!ended) end_run(REFUSED, "no memory");
    }
    ended[ended_count++] = (Ended){ s->real, s->clock, true };
}

static void leave(void *rounds) {
    if ((uintptr_t)rounds > 1) {
        pthread_setspecific(end_key, (void *)((uintptr_t)rounds - 1));
        return;
    }
    Seat *s = mine();
    self.pc = 0;
    self.depth = 0;
    step("ends", NULL);
    release(&s->function);
    changed();
    if (!s->is_detached) keep_ended(s);
    if (live_count() == 1) exit(0);
    wake_all(&s->real, "wakes"); /* who joins it waits for the real thread: no step follows */
    leave_to_others();
}

/* --- The beginning --- */

static void *begin(void *argument) {
    uint32_t seat = (uint32_t)(uintptr_t)argument;
    Seat *s = &seats[seat];
    pthread_attr_t attr;
    void *low = NULL;
    size_t size = 0;
    self.seat = (int32_t)seat;
    if (pthread_getattr_np(pthread_self(), &attr) == 0) {
        pthread_attr_getstack(&attr, &low, &size);
        pthread_attr_destroy(&attr);
    }
    s->stack_low = (uintptr_t)low;
    s->stack_high = (uintptr_t)low + size;
    wait_for_baton(seat);
    next_epoch();
    begin_budget();
    begin_end_key();
    return s->function(s->argument);
}

/* Of std::thread, whose function is libstdc++'s, what stands in its state first: a function, where
   it was made of one. */
static uintptr_t function_of(void *(*function)(void *), void *argument) {
    Dl_info info;
    if (dladdr((void *)(uintptr_t)function, &info) && info.dli_fname &&
        strstr(info.dli_fname, "libstdc++"))
        return ((const uintptr_t *)argument)[1];
    return (uintptr_t)function;
}

static void prepare(Seat *s, const pthread_attr_t *attr, void *(*function)(void *),
                    void *argument) {
    uint32_t seat = (uint32_t)(s - seats);
    int state = PTHREAD_CREATE_JOINABLE;
    if (attr) pthread_attr_getdetachstate(attr, &state);
    s->function = function;
    s->argument = argument;
    s->is_detached = state != PTHREAD_CREATE_JOINABLE;
    s->is_cancelled = s->is_uncancellable = false;
    s->signals = 0;
    s->early_ends = s->seen_count = 0;
    s->wait = WAITS_FOR_NOTHING;
    s->born = ++s->clock.at[seat];
    join_clock(&s->clock, &mine()->clock);
    next_epoch();
    shared->functions[seat] = function_of(function, argument);
}

/* The real thread is made before the step, so that its number stands; it waits for the baton. */
EXPORT int pthread_create(pthread_t *thread, const pthread_attr_t *attr, void *(*function)(void *),
                          void *argument) {
    ENTER();
    if (!is_tested()) return REAL(pthread_create)(thread, attr, function, argument);
    uint32_t seat = take_seat();
    Seat *s = &seats[seat];
    prepare(s, attr, function, argument);
    int refused = REAL(pthread_create)(thread, attr, begin, (void *)(uintptr_t)seat);
    if (refused) end_run(REFUSED, "the system makes no further thread: error %d", refused);
    s->real = *thread;
    ask(PCT_ASK_UP, seat, "creates", NULL);
    changed();
    return 0;
}

/* --- Joining --- */

/* Waits for its end: 0, or why it can't. */
static int await_end(pthread_t thread, const struct timespec *until, clockid_t clock) {
    uint32_t seat = seat_of(thread);
    if (seat == (uint32_t)self.seat) return EDEADLK;
    if (seat == NOBODY) return 0;
    if (seats[seat].is_detached) return EINVAL;
    begin_wait(until ? WAITS_FOR_TIME : WAITS_IN_QUEUE, &seats[seat].real);
    if (until) wait_until(deadline_of(until, clock));
    bool is_late = finish_wait("waits for the end", &seats[seat].real);
    cancel_point();
    return is_late ? ETIMEDOUT : 0;
}

static int join_at(pthread_t thread, void **value, const struct timespec *until, clockid_t clock) {
    cancel_point();
    uint32_t seat = seat_of(thread);
    step("join", seat == NOBODY ? NULL : &seats[seat]);
    int refused = await_end(thread, until, clock);
    if (refused) return refused;
    refused = REAL(pthread_join)(thread, value);
    Ended *known = ended_of(thread);
    if (!refused && known) {
        join_clock(&mine()->clock, &known->clock);
        known->is_there = false;
    }
    return refused;
}

EXPORT int pthread_join(pthread_t thread, void **value) {
    ENTER();
    return is_tested() ? join_at(thread, value, NULL, 0) : REAL(pthread_join)(thread, value);
}
EXPORT int pthread_timedjoin_np(pthread_t thread, void **value, const struct timespec *until) {
    ENTER();
    return is_tested() ? join_at(thread, value, until, CLOCK_REALTIME)
                       : REAL(pthread_timedjoin_np)(thread, value, until);
}
EXPORT int pthread_clockjoin_np(pthread_t thread, void **value, clockid_t clock,
                                const struct timespec *until) {
    ENTER();
    return is_tested() ? join_at(thread, value, until, clock)
                       : REAL(pthread_clockjoin_np)(thread, value, clock, until);
}
EXPORT int pthread_tryjoin_np(pthread_t thread, void **value) {
    ENTER();
    if (!is_tested()) return REAL(pthread_tryjoin_np)(thread, value);
    step("tryjoin", NULL);
    if (seat_of(thread) == NOBODY) return join_at(thread, value, NULL, 0);
    looked(0, 3);
    return EBUSY;
}
EXPORT int pthread_detach(pthread_t thread) {
    ENTER();
    if (is_tested()) {
        uint32_t seat = seat_of(thread);
        if (seat != NOBODY) seats[seat].is_detached = true;
    }
    return REAL(pthread_detach)(thread);
}

/* --- Cancelling: at the points where POSIX says so --- */

void cancel_point(void) {
    Seat *s = mine();
    if (!s->is_cancelled || s->is_uncancellable) return;
    s->is_cancelled = false;
    s->wait = WAITS_FOR_NOTHING;
    pthread_exit(PTHREAD_CANCELED);
}

EXPORT int pthread_cancel(pthread_t thread) {
    ENTER();
    if (!is_tested()) return REAL(pthread_cancel)(thread);
    step("cancel", NULL);
    uint32_t seat = seat_of(thread);
    if (seat == NOBODY) return ended_of(thread) ? 0 : ESRCH;
    Seat *s = &seats[seat];
    s->is_cancelled = true;
    bool waits = s->wait == WAITS_IN_QUEUE || s->wait == WAITS_FOR_TIME;
    if (waits && !s->is_woken && !s->is_uncancellable) wake(seat, "cancel wakes");
    return 0;
}
EXPORT void pthread_testcancel(void) {
    ENTER();
    if (is_tested()) cancel_point();
    else REAL(pthread_testcancel)();
}
EXPORT int pthread_setcancelstate(int state, int *old) {
    if (!is_tested()) return REAL(pthread_setcancelstate)(state, old);
    if (old) *old = mine()->is_uncancellable ? PTHREAD_CANCEL_DISABLE : PTHREAD_CANCEL_ENABLE;
    mine()->is_uncancellable = state == PTHREAD_CANCEL_DISABLE;
    return 0;
}

/* --- Signals of the program to one of its threads: taken at that thread's next step, not in
 * between --- */

EXPORT int pthread_kill(pthread_t thread, int number) {
    ENTER();
    uint32_t seat = is_tested() ? seat_of(thread) : NOBODY;
    if (seat == NOBODY || seat == (uint32_t)self.seat || number < 1)
        return REAL(pthread_kill)(thread, number);
    step("kill", NULL);
    if (!seats[seat].is_live) return ESRCH;
    seats[seat].signals |= BIT(number);
    changed();
    return 0;
}

void take_signals(void) {
    while (mine()->signals) {
        int number = __builtin_ctzll(mine()->signals);
        uintptr_t pc = self.pc;
        mine()->signals &= ~BIT(number);
        REAL(syscall)(SYS_tgkill, getpid(), (pid_t)REAL(syscall)(SYS_gettid), number);
        self.pc = pc;
    }
}
