/*
 * Programs as they stand under the scheduler: what the files stand_*.c share.
 *
 * A program is compiled with -fsanitize=thread and linked with these files in place of libtsan
 * (tools/cc). Under pct-try its main runs in a child process for each run (stand_process.c), and
 * its real threads run one at a time. Each has a seat, which is a thread of the library's book: it
 * brings what it asks next, and the book says who goes (stand_baton.c). What the compiler put
 * before each access of memory comes to stand_access.c and stand_atomic.c, what the program calls
 * of POSIX, C11 and C++ to the other files. Without pct-try all of it hands on to what it stands
 * for.
 *
 * stand_baton.c and stand_process.c know nothing of instrumentation: a layer with calls of its own,
 * as pct_test.c, could stand on them.
 */
#ifndef PCT_STAND_H
#define PCT_STAND_H

#ifndef _GNU_SOURCE
#define _GNU_SOURCE
#endif
#include <pct.h>

#include <dlfcn.h>
#include <pthread.h>
#include <time.h>

#define MOST_SEATS PCT_MOST_THREADS
#define MOST_FRAMES 12    /* return addresses that a step keeps, from the innermost */
#define MOST_CALLS 256    /* calls of a thread that are known at a time; a power of two */
#define MOST_LEARNED 4096 /* places of accesses that are steps; a power of two */
#define NOBODY UINT32_MAX
#define BIT(n) ((uint64_t)1 << (n))
#define EXPORT __attribute__((visibility("default")))
#define LIKELY(is) __builtin_expect(!!(is), 1)
#define NANOSECONDS 1000000000U /* of a second */

/* The function that the runtime stands before. */
#define REAL(name)                                                      \
    ({                                                                  \
        static __typeof__(&name) real_;                                 \
        if (!real_) real_ = (__typeof__(&name))dlsym(RTLD_NEXT, #name); \
        real_;                                                          \
    })

/* How a run ended. GOES is left where the program ended by itself: its status says more then. */
typedef enum End {
    GOES,
    DEADLOCK,
    LIVELOCK,
    CUT,
    MISUSE,
    RACE,
    USE_AFTER_FREE,
    ASSERTION,
    CRASH,
    DEPARTED,
    MORE_SEATS,
    REFUSED,
    LAYER_FAULT
} End;

typedef enum PlainMode { PLAIN_OFF, PLAIN_RACES, PLAIN_STEPS, PLAIN_RACY } PlainMode;

/* By what the runs go; pct-try sets it. */
typedef struct Plan {
    uint64_t seed;
    uint32_t depth; /* 0: the declared order, without a change point */
    uint32_t seats, steps, limit;
    uint32_t plain; /* a PlainMode */
    uint32_t is_reusing, is_early, is_chaotic, is_loud, is_frozen;
    uint32_t listed;   /* how many steps the list has; 0 where the seed draws */
    uint32_t patience; /* seconds without a step, after which a run is ended */
} Plan;

/* What a thread asks or did: `object` as in a PctAsk, `value` what stood at the address. */
typedef struct Step {
    uint32_t thread, kind, object;
    int32_t answer;
    const char *what;
    uintptr_t at;
    uint64_t value;
    uintptr_t frames[MOST_FRAMES];
} Step;

/* One of two accesses that race, with the mutexes that were held. */
typedef struct Access {
    uint32_t thread;
    uint32_t size, is_write, is_atomic;
    uintptr_t at, held[4];
    uintptr_t frames[MOST_FRAMES];
} Access;

/* What the runner and the run's process share. */
typedef struct Shared {
    Plan plan;
    End end;
    char told[512];
    uint32_t step_count, seat_count, accesses_told;
    uint32_t
        points[PCT_MOST_POINTS]; /* after whose steps threads are lowered; 0 where there is none */
    uint64_t moves;              /* so often something was asked, in all runs: the watchdog's */
    uint64_t hash;               /* of the steps and the values that they read */
    uint64_t plain_accesses, early_ends;
    uint32_t status;    /* of the process, as wait gives it */
    Access accesses[2]; /* of a race; of a use after free the use and the free */
    Step
        waiting[MOST_SEATS]; /* what each thread asks at the end; kind PCT_ASK_NONE where nothing */
    uintptr_t functions[MOST_SEATS];
    uint32_t learned_count, ignored_count;
    uintptr_t learned[MOST_LEARNED], ignored[MOST_LEARNED];
    uint32_t list[PCT_MOST_STEPS];
    Step steps[PCT_MOST_STEPS + 1];
} Shared;
extern Shared *shared;

typedef struct Clock {
    uint32_t at[MOST_SEATS];
} Clock;

/* What a thread waits for, beside its semaphore. */
typedef enum Wait {
    WAITS_FOR_NOTHING,
    WAITS_IN_QUEUE,  /* for somebody who wakes it */
    WAITS_FOR_TIME,  /* or until its deadline */
    WAITS_FOR_CHANGE /* until another thread changed something */
} Wait;

#define MOST_SEEN 16
typedef struct Seen {
    uintptr_t pc;
    uint64_t value;
    uint32_t count;
} Seen;

typedef struct Seat {
    enum { SEAT_FREE, SEAT_AWAY, SEAT_BROUGHT, SEAT_POSTED } state;
    bool is_live;
    int gate; /* 1 where the baton was given to it */
    Step step;
    int64_t answer;

    pthread_t real;
    void *(*function)(void *);
    void *argument;
    bool is_detached;
    bool is_cancelled, is_uncancellable;
    uint64_t signals; /* a bit for each that was sent to it by pthread_kill */
    uintptr_t stack_low, stack_high;
    uint32_t born; /* its epoch when the thread that has the seat now began */

    Wait wait;
    const volatile void *waits_at;
    bool is_woken, has_timed_out, is_early;
    uint32_t early_ends, mask; /* mask: of a futex */
    uint64_t since, deadline, looked;

    Seen seen[MOST_SEEN];
    uint32_t seen_count;

    Clock clock, released, acquired; /* released, acquired: what fences make of relaxed atomics */
} Seat;
extern Seat seats[MOST_SEATS];

/* The thread that runs this code: its seat, or -1 outside of a run; where the runtime was called
   from; and the calls that led there, of which the last MOST_CALLS are kept. */
typedef struct Self {
    int32_t seat;
    uint32_t depth;
    uintptr_t pc;
    bool has_step;  /* since it last noted a value */
    uint32_t epoch; /* its own part of its clock */
    int32_t budget; /* accesses of memory that it may still make without a look at anything else */
    uintptr_t calls[MOST_CALLS];
} Self;
extern __thread Self self __attribute__((tls_model("initial-exec")));

static inline bool is_tested(void) { return self.seat >= 0; }
static inline Seat *mine(void) { return &seats[self.seat]; }

/* The first line of each call that the program makes. */
#define ENTER() (self.pc = (uintptr_t)__builtin_return_address(0))

/* --- stand_baton.c: the book and the baton --- */

/* Whose ask is which. */
bool is_enabled(uint32_t seat);
uint32_t seat_count(void);
uint32_t live_count(void);
/* Opens the book of the plan, in which this thread has the first seat. */
void open_book(void);
/* Takes a step; the answer is the book's. It may begin another thread's turn first. */
int64_t bring(uint32_t kind, uint32_t object, const char *what, const volatile void *at);
/* The last step of a thread whose seat is free then: it doesn't come back. */
void leave_seat(void);
/* A seat for a further thread. */
uint32_t take_seat(void);
/* What the thread waits for to have its turn. */
void wait_for_baton(uint32_t seat);
/* Puts a value beside the thread's step, where it has just taken one. */
void note_value(uint64_t value);
/* Ends the run, and the process with it. */
void end_run(End end, const char *form, ...) __attribute__((noreturn, format(printf, 2, 3)));

/* --- stand_frames.c: where a call came from --- */

void keep_frames(uintptr_t *frames);

/* --- stand_rest.c: who goes when nobody can; looks again and again; time --- */

/* A step on an object of the book. Where it would leave nobody who can go, who waits for a change
   or for a time goes first. */
int64_t ask(uint32_t kind, uint32_t object, const char *what, const volatile void *at);
/* The end of a thread, as leave_seat. */
void leave_to_others(void);
/* A step that touches nothing of the book. None is taken while the thread is alone. */
void step(const char *what, const volatile void *at);
bool is_alone(void);
/* What it did may be seen by others; let_look: it let a lock go, which alone is no change. */
void changed(void);
void let_look(void);
/* It looked at something that nobody changed meanwhile; `most` times, and it rests. */
void looked(uint64_t value, uint32_t most);
void rest(const char *what);
/* After many steps in a row, or accesses without a step, while others could go. */
void give_way(void);
void count_access(void);
void begin_budget(void);
void begin_wait(Wait wait, const volatile void *at);
/* Of a thread that began to wait for a time, by the program's clock. */
void wait_until(uint64_t deadline);
/* Until it is woken: whether its time has run out first. */
bool finish_wait(const char *what, const volatile void *at);
void wake(uint32_t seat, const char *what);
/* Who has waited longest at the address, or NOBODY. A mask that isn't 0 must have a bit in common.
 */
uint32_t waiter_at(const volatile void *at, uint32_t mask);
uint32_t wake_all(const volatile void *at, const char *what);
uint64_t virtual_now(void);
void pass_time(uint64_t nanoseconds);
/* Drawn from the seed, below `most`. */
uint32_t draw_below(uint32_t most);

/* --- stand_clock.c: happens-before --- */

void begin_clocks(void);
void next_epoch(void);
void join_clock(Clock *to, const Clock *from);
void acquire(const volatile void *at);
void release(const volatile void *at);
void load_clock(const volatile void *at, int order);
void store_clock(const volatile void *at, int order, bool is_exchange);
void fence_clock(int order);

/* --- stand_shadow.c: who touched which plain memory last --- */

typedef enum AccessKind {
    ACCESS_READ = 0,
    ACCESS_WRITE = 1,
    ACCESS_ATOMIC = 2,
    ACCESS_FREED = 4
} AccessKind;
void touch(uintptr_t at, size_t size, unsigned kind, uintptr_t pc);
void mark_freed(uintptr_t at, size_t size, uintptr_t pc);
void forget_memory(uintptr_t at, size_t size);
bool is_freed(uintptr_t at);
bool is_learned(uintptr_t pc);

/* --- stand_lock.c --- */

int lock_at(const volatile void *at, unsigned kind, bool is_try, const char *what);
int lock_until(const volatile void *at, unsigned kind, const struct timespec *until,
               clockid_t clock, const char *what);
int unlock_at(const volatile void *at, unsigned kind, const char *what);
/* Of a lock that is let go whole for a wait: how deep it was held, and that again. */
uint32_t let_go(const volatile void *at, const char *what);
void regain(const volatile void *at, uint32_t depth, const char *what);
void tell_unlocked(const volatile void *at);
void forget_lock(const volatile void *at);
/* The mutexes that a thread holds. */
void locks_held(uint32_t seat, uintptr_t *held, size_t most);

/* --- stand_thread.c --- */

void begin_threads(void);
void cancel_point(void);
void take_signals(void);

/* --- stand_object.c: what stands at the address of a semaphore, a barrier.. in this run --- */

typedef struct Object {
    volatile void *at;
    bool is_known; /* its values were set */
    int64_t value;
    uint32_t size, arrived;
} Object;
Object *object_at(volatile void *at);

/* --- stand_wait.c --- */

int cond_wait_at(const volatile void *cond, const volatile void *mutex,
                 const struct timespec *until, clockid_t clock);
void cond_signal_at(const volatile void *cond);
void cond_broadcast_at(const volatile void *cond);
int once_at(volatile void *once, void (*function)(void));
uint64_t nanoseconds(const struct timespec *time);
/* A time of a clock as a deadline of the program's clock. */
uint64_t deadline_of(const struct timespec *until, clockid_t clock);

#endif
