/*
 * The core of pct, the PCT scheduler, as a library: who takes the next step of a threaded test, and
 * what its steps come to. C99, and C++.
 *
 * A layer over this library runs a test's threads. Before each operation on something shared a
 * thread posts what it asks; the book says whose turn it is; that thread takes its step, does the
 * operation and goes on to its next post. The library starts no thread, waits for nothing and keeps
 * nothing but what its handles have.
 *
 * Each call answers a status, and takes what it is given as it comes: threads, lines, counts and
 * values out of range are PCT_BAD, and then nothing is changed. What the caller still owes:
 *
 * - Pointers are real, aligned, and don't overlap where one is written through. A list is a pointer
 *   and its number of items; of an empty list the pointer may be anything, NULL too.
 * - A handle is zero (PCT_BOOK_NONE, PCT_TRACE_NONE) before it is first given to a call; its fields
 *   are read and written by the library alone; it isn't copied. One call at a time on a handle; from
 *   any thread, where locks or the like put the calls in an order. Different handles don't share
 *   anything.
 * - malloc, realloc and free come from one allocator, which aligns a block to each power of two up to
 *   16 that divides its size.
 * - No call from a signal handler, nor in the forked child of a process with threads.
 *
 * Threads and objects are numbered from 0 among those of their kind, steps from 1. Lines are any
 * numbers; only texts want them from 1 to 4096.
 */
#ifndef PCT_H
#define PCT_H

#include <stdbool.h>
#include <stddef.h>
#include <stdint.h>

#ifdef __cplusplus
extern "C" {
#endif

/* The version of this header. pct_tell_version answers that of the library. */
#define PCT_VERSION 1

/* The greatest numbers of threads, and of objects of each kind; steps of a run; change points; bytes of a name. */
#define PCT_MOST_THREADS 64
#define PCT_MOST_OBJECTS 64
#define PCT_MOST_STEPS 100000
#define PCT_MOST_POINTS 7
#define PCT_MOST_NAME 32

/* What became of a call. PCT_DONE, PCT_ENDED and PCT_POSTED alone change a book. */
typedef enum PctStatus {
    PCT_DONE = 0,      /* it did what it says */
    PCT_ENDED = 1,     /* the step was taken, and the run is over with it */
    PCT_POSTED = 2,    /* of pct_book_step: the post stands, and the turn isn't this thread's */
    PCT_NOT_YET = 3,   /* it isn't this thread's turn; or no outcome stands yet */
    PCT_OVER = 4,      /* the run was over before */
    PCT_BAD = 5,       /* an argument is out of range, or a text has a fault */
    PCT_NO_MEMORY = 6, /* malloc gave none */
    PCT_NO_BOOK = 7,   /* the handle has nothing */
    PCT_NO_ROOM = 8    /* the buffer is too small: nothing is written */
} PctStatus;

/* What a thread asks of what is shared. a and b name objects or threads, x and y are values. */
typedef enum PctAskKind {
    PCT_ASK_NONE = 0,         /* it has ended */
    PCT_ASK_READ = 1,         /* variable a; the answer is its value */
    PCT_ASK_WRITE = 2,        /* variable a gets x */
    PCT_ASK_ADD = 3,          /* x is added to variable a; the answer is the old value */
    PCT_ASK_CAS = 4,          /* variable a gets y where it is x; the answer is 1 then, else 0 */
    PCT_ASK_LOCK = 5,         /* mutex a */
    PCT_ASK_TRY_LOCK = 6,     /* mutex a; the answer is 1 where it was taken, else 0 */
    PCT_ASK_UNLOCK = 7,       /* mutex a */
    PCT_ASK_RELEASE = 8,      /* first half of a wait: lets mutex b go and waits for condition a */
    PCT_ASK_REGAIN = 9,       /* second half: takes mutex b again once condition a woke it */
    PCT_ASK_SIGNAL = 10,      /* condition a wakes who has waited longest */
    PCT_ASK_BROADCAST = 11,   /* condition a wakes all */
    PCT_ASK_DOWN = 12,        /* semaphore a */
    PCT_ASK_TRY_DOWN = 13,    /* semaphore a; the answer is 1 where it was lowered, else 0 */
    PCT_ASK_UP = 14,          /* semaphore a */
    PCT_ASK_ARRIVE = 15,      /* first half of a meeting at barrier a */
    PCT_ASK_LEAVE = 16,       /* second half; the answer is 1 for the last to arrive, else 0 */
    PCT_ASK_JOIN = 17,        /* the end of thread a */
    PCT_ASK_YIELD = 18,       /* a step that touches nothing */
    PCT_ASK_CHECK_HOLDS = 19, /* an assertion that holds */
    PCT_ASK_CHECK_FAILS = 20, /* an assertion that doesn't: it ends the run */
    PCT_ASK_OVERFLOW = 21,    /* the thread's own fault, a sum out of range: it ends the run */
    PCT_ASK_ZERO_DIVISOR = 22,
    PCT_ASK_SPIN = 23,        /* too long without an ask */
    PCT_ASK_START = 24,       /* starts thread a, whose first ask is PCT_ASK_BEGIN */
    PCT_ASK_BEGIN = 25,
    PCT_ASK_RD_LOCK = 26,     /* read-write lock a */
    PCT_ASK_WR_LOCK = 27,
    PCT_ASK_TRY_RD_LOCK = 28, /* the answer is 1 where it was taken, else 0 */
    PCT_ASK_TRY_WR_LOCK = 29,
    PCT_ASK_RW_UNLOCK = 30
} PctAskKind;

/* What became of a run. */
typedef enum PctOutcomeKind {
    PCT_PASSED = 1,  /* every thread has ended, or was never started */
    PCT_FAILED = 2,  /* an assertion of `thread` in `line` doesn't hold */
    PCT_STUCK = 3,   /* nobody can go on: `blocked` has a bit for each who hasn't ended, the lowest
                        for thread 0, and `lines` the line of each */
    PCT_MISUSE = 4,  /* `thread` did in `line` what the object forbids; `reason` is a PctMisuse */
    PCT_FAULT = 5,   /* `thread` has a fault of its own in `line`; `reason` is a PctFault */
    PCT_CUT = 6,     /* the run would go on beyond its limit */
    PCT_DEPARTED = 7 /* of a book by a list: `thread` is where the run leaves the list */
} PctOutcomeKind;

typedef enum PctMisuse {
    PCT_NOT_OWNER = 1,       /* it let go what it doesn't hold */
    PCT_SEM_FULL = 2,        /* it raised a semaphore past 2147483647 */
    PCT_ALREADY_STARTED = 3, /* it started a thread that was started before */
    PCT_TOO_MANY_READS = 4   /* it took more read holds than there may be */
} PctMisuse;

typedef enum PctFault { PCT_FAULT_OVERFLOW = 1, PCT_FAULT_ZERO_DIVISOR = 2, PCT_FAULT_SPIN = 3 } PctFault;

/* Whose turn it is. */
typedef enum PctChoiceKind {
    PCT_CHOICE_NONE = 0,  /* there is no book */
    PCT_CHOICE_TURN = 1,  /* it is the turn of `thread`, which has posted */
    PCT_CHOICE_WAITS = 2, /* it depends on the next post of `thread` */
    PCT_CHOICE_OVER = 3   /* the run is over */
} PctChoiceKind;

/* What is wrong with a text. */
typedef enum PctTextFault {
    PCT_TEXT_TOO_LONG = 1,
    PCT_TEXT_BAD_HEADER = 2,
    PCT_TEXT_BAD_LINE = 3,
    PCT_TEXT_UNKNOWN_NAME = 4,
    PCT_TEXT_OUT_OF_ORDER = 5, /* of traces: the number of a step isn't the next one */
    PCT_TEXT_NO_VERDICT = 6,
    PCT_TEXT_MORE_AFTER_VERDICT = 7
} PctTextFault;

/* Whether the mutexes of a run were always taken in one order. */
typedef enum PctLockKind { PCT_LOCK_ORDER = 1, PCT_LOCK_CYCLE = 2 } PctLockKind;

/* What the threads share: 1 to 64 threads, and at most 64 objects of each kind. The variables,
   semaphores and barriers stand beside it as lists: a variable's first value; a semaphore's, from 0 to
   2147483647; the number of threads that meet at a barrier, 1 to 1000. */
typedef struct PctDeal {
    uint32_t threads;
    uint32_t mutexes;
    uint32_t conditions;
    uint32_t rwlocks;
} PctDeal;

/* Of values that the kind of ask doesn't use, any will do. */
typedef struct PctAsk {
    uint32_t kind;
    uint32_t a;
    uint32_t b;
    int64_t x;
    int64_t y;
} PctAsk;

/* The one helper: an ask of a kind. */
#define PCT_ASK(kind_, a_, b_, x_, y_) { (uint32_t)(kind_), (uint32_t)(a_), (uint32_t)(b_), (int64_t)(x_), (int64_t)(y_) }

/* After the step of `thread` that is its `number`-th, from 1, it is lowered. */
typedef struct PctMoment {
    uint32_t thread;
    uint32_t number;
} PctMoment;

/* What a call on a book answers: its status; the answer of the step, and 0 where none was taken; and
   whose turn it is after the call. */
typedef struct PctTurn {
    uint32_t status;
    uint32_t choice;
    uint32_t thread;
    int64_t answer;
} PctTurn;

/* A step. */
typedef struct PctEvent {
    uint32_t thread;
    uint32_t line;
    PctAsk ask;
    int64_t answer;
} PctEvent;

typedef struct PctOutcome {
    uint32_t kind;
    uint32_t reason;
    uint32_t thread;
    uint32_t line;
    uint64_t blocked;
    uint32_t lines[64];
} PctOutcome;

/* A status and a number: of steps, of items, or of bytes. Where the status is PCT_NO_ROOM it is what is
   needed, else 0 where it isn't PCT_DONE. */
typedef struct PctCount {
    uint32_t status;
    uint64_t count;
} PctCount;

/* What reading a text came to. Where a text has a fault, the status is PCT_BAD, and this is its first
   faulty line, from 1, and what is wrong with it. The line is 0 where another argument is bad. */
typedef struct PctRead {
    uint32_t status;
    uint32_t line;
    uint32_t fault;
} PctRead;

/* A book of turns, or none. */
typedef struct PctBook {
    bool full;
    void *at;
} PctBook;
#define PCT_BOOK_NONE { false, NULL }

/* A trace that was read, or none. */
typedef struct PctTrace {
    bool full;
    void *at;
} PctTrace;
#define PCT_TRACE_NONE { false, NULL }

/* The head of a trace. Its format's version is 1 or 2; the second has read-write locks. */
typedef struct PctHead {
    uint32_t status;
    uint32_t version;
    uint32_t limit;
    uint64_t threads;
    uint64_t points;
    uint64_t steps;
} PctHead;

/* A directive: this thread lowest, these moments, this verdict. */
typedef struct PctDirective {
    uint32_t low;
    uint32_t count;
    PctMoment moments[7];
    PctOutcome verdict;
} PctDirective;

/* A number below 2^128. */
typedef struct PctBound {
    uint32_t status;
    uint64_t low;
    uint64_t high;
} PctBound;

/* Two accesses of a variable that nothing orders, at least one a write, by their steps. */
typedef struct PctRace {
    uint32_t variable;
    uint32_t first;
    uint32_t second;
} PctRace;

/* At this step the thread takes a mutex while it holds another. */
typedef struct PctNesting {
    uint32_t step;
    uint32_t thread;
    uint32_t held;
    uint32_t taken;
} PctNesting;

/* Where the kind is PCT_LOCK_ORDER, an order of all mutexes was written; else a cycle of nestings. */
typedef struct PctLocks {
    uint32_t status;
    uint32_t kind;
    uint64_t count;
} PctLocks;

/* The run of a seed, for groups and reports. */
typedef struct PctRow {
    uint64_t seed;
    uint32_t steps;
    PctOutcome verdict;
} PctRow;

/* Failures that have one verdict: how many, the shortest one's steps, and the first one's seed. */
typedef struct PctGroup {
    PctOutcome verdict;
    uint32_t count;
    uint32_t steps;
    uint64_t first;
} PctGroup;

/* What the runs of a campaign have in common: their threads, the steps 1 to `steps` from which change
   points are drawn, the depth (one more than the change points), and the limit. */
typedef struct PctFrame {
    uint32_t threads;
    uint32_t steps;
    uint32_t depth;
    uint32_t limit;
} PctFrame;

/* --- Drawing --- */

/* The order of `threads` threads (1 to 64), the highest priority first, and the depth - 1 change points in
   1..steps that a seed draws. `order` has room for `threads` numbers and `points` for depth - 1; the
   depth is 1 to 8, steps 1 to 100000. PCT_DONE, PCT_BAD, PCT_NO_MEMORY. */
uint32_t pct_draw(uint64_t seed, uint32_t threads, uint32_t steps, uint32_t depth,
                  uint32_t *order, size_t orders, uint32_t *points, size_t count);

/* --- Books --- */

/* Makes a book in which no thread has posted, of a run of at most `limit` steps (1 to 100000). What the
   handle had is freed; where no book is made it stays. PCT_DONE, PCT_BAD, PCT_NO_MEMORY.
   By an order of all threads, the highest priority first, and at most 7 change points: right after the
   step of a point's number its thread is lowered. */
uint32_t pct_book_by_points(PctBook *book, const PctDeal *deal, const int64_t *variables, size_t variable_count,
                            const int64_t *semaphores, size_t semaphore_count, const int64_t *barriers,
                            size_t barrier_count, const uint32_t *order, size_t order_count,
                            const uint32_t *points, size_t point_count, uint32_t limit);

/* By an order and at most 7 moments in place of change points. */
uint32_t pct_book_by_moments(PctBook *book, const PctDeal *deal, const int64_t *variables, size_t variable_count,
                             const int64_t *semaphores, size_t semaphore_count, const int64_t *barriers,
                             size_t barrier_count, const uint32_t *order, size_t order_count,
                             const PctMoment *moments, size_t moment_count, uint32_t limit);

/* By a list of threads that says who takes each step. Where the listed thread can't take the next step, or
   somebody can go on after the list's end, the outcome is PCT_DEPARTED. */
uint32_t pct_book_by_list(PctBook *book, const PctDeal *deal, const int64_t *variables, size_t variable_count,
                          const int64_t *semaphores, size_t semaphore_count, const int64_t *barriers,
                          size_t barrier_count, const uint32_t *threads, size_t thread_count, uint32_t limit);

/* Frees what the handle has, if it has something. */
void pct_book_free(PctBook *book);

/* Whose turn it is. PCT_DONE, PCT_NO_BOOK. */
PctTurn pct_book_next(PctBook *book);

/* A thread that isn't in the middle of a post posts what it asks next, in a line of the test. PCT_DONE
   (the post may settle the run: the choice is PCT_CHOICE_OVER then), PCT_OVER, PCT_BAD, PCT_NO_BOOK. */
PctTurn pct_book_post(PctBook *book, uint32_t thread, uint32_t line, const PctAsk *ask);

/* A thread that has posted takes its step where the turn is its own. PCT_DONE, PCT_ENDED, PCT_NOT_YET,
   PCT_OVER, PCT_BAD, PCT_NO_BOOK. */
PctTurn pct_book_take(PctBook *book, uint32_t thread);

/* Posts, and takes the step where the turn is this thread's then. PCT_DONE, PCT_ENDED, PCT_POSTED (the post
   may settle the run), PCT_OVER, PCT_BAD, PCT_NO_BOOK. */
PctTurn pct_book_step(PctBook *book, uint32_t thread, uint32_t line, const PctAsk *ask);

/* The number of steps so far. PCT_DONE, PCT_NO_BOOK. */
PctCount pct_book_length(PctBook *book);

/* The steps after the first `from` ones, as many as `count`. PCT_DONE; PCT_BAD where there are fewer;
   PCT_NO_BOOK. */
uint32_t pct_book_steps(PctBook *book, uint32_t from, PctEvent *steps, size_t count);

/* What became of the run. PCT_DONE; PCT_NOT_YET where none stands; PCT_NO_BOOK. */
uint32_t pct_book_outcome(PctBook *book, PctOutcome *outcome);

/* --- Texts --- */

/* Names are one text of lines KIND NAME, each ended by a line feed: thread, var, mutex, cond, sem,
   barrier or rwlock, and a name of 1 to 32 letters, digits and _ that begins with no digit and is neither
   a keyword of test scripts of version 1 nor a register, r0 to r15. Those of a kind stand in the order of
   their numbers, at most 64 of each; no two of any kind are the same. Lines of steps and verdicts are 1
   to 4096 here, and a verdict of a stuck run has somebody blocked. A text goes to `text` where it has
   room for it; the count is its bytes. PCT_DONE, PCT_NO_ROOM, PCT_BAD, PCT_NO_MEMORY. */

/* A trace file of a run by an order of all threads that have names, of which there is at least one, and
   at most 7 change points (each 1 to 100000), of at most `limit` steps (1 to 100000). */
PctCount pct_text_trace(const uint8_t *names, size_t name_bytes, uint32_t version, uint32_t limit,
                        const uint32_t *order, size_t order_count, const uint32_t *points, size_t point_count,
                        const PctEvent *steps, size_t step_count, const PctOutcome *verdict,
                        uint8_t *text, size_t room);

/* A verdict, as it stands behind `verdict ` in traces and reports. */
PctCount pct_text_verdict(const uint8_t *names, size_t name_bytes, const PctOutcome *verdict, uint8_t *text, size_t room);

/* A directive file. */
PctCount pct_text_directive(const uint8_t *names, size_t name_bytes, const PctDirective *directive, uint8_t *text, size_t room);

/* Reads a directive file. PCT_DONE, PCT_BAD, PCT_NO_MEMORY. */
PctRead pct_text_read_directive(const uint8_t *names, size_t name_bytes, const uint8_t *text, size_t bytes, PctDirective *directive);

/* Reads a trace file into the handle. What it had is freed; where nothing is read it stays. PCT_DONE,
   PCT_BAD, PCT_NO_MEMORY. */
PctRead pct_text_read_trace(PctTrace *trace, const uint8_t *names, size_t name_bytes, const uint8_t *text, size_t bytes);

/* Frees what the handle has, if it has something. */
void pct_text_trace_free(PctTrace *trace);

/* The head of a trace, with how many threads, points and steps it has. PCT_DONE, PCT_NO_BOOK. */
PctHead pct_text_trace_head(PctTrace *trace);

/* Its order and its change points, into lists of just their lengths. PCT_DONE, PCT_BAD, PCT_NO_BOOK. */
uint32_t pct_text_trace_order(PctTrace *trace, uint32_t *order, size_t order_count, uint32_t *points, size_t point_count);

/* Its steps after the first `from` ones, as many as `count`. PCT_DONE; PCT_BAD where there are fewer;
   PCT_NO_BOOK. */
uint32_t pct_text_trace_steps(PctTrace *trace, uint32_t from, PctEvent *steps, size_t count);

/* Its verdict. PCT_DONE, PCT_NO_BOOK. */
uint32_t pct_text_trace_verdict(PctTrace *trace, PctOutcome *verdict);

/* The report of a campaign: its rows and its groups (which pct_tell_groups gives), as a text or as JSON. */
PctCount pct_text_report(const uint8_t *names, size_t name_bytes, const PctFrame *frame, const PctRow *rows,
                         size_t row_count, uint8_t *text, size_t room);
PctCount pct_text_report_json(const uint8_t *names, size_t name_bytes, const PctFrame *frame, const PctRow *rows,
                              size_t row_count, uint8_t *text, size_t room);

/* --- What runs tell --- */

/* The version of the library. */
uint32_t pct_tell_version(void);

/* 1 where the library was proved before it was built, and 0 where `./build --unproved` compiled it without. */
uint32_t pct_tell_is_proved(void);

/* The moments of a run's change points: of each point (at least 1) that is a step and that no later point equals, its thread and the
   number of that thread's own step. At most 7 points. PCT_DONE, PCT_NO_ROOM, PCT_BAD, PCT_NO_MEMORY. */
PctCount pct_tell_moments(const PctEvent *steps, size_t step_count, const uint32_t *points, size_t point_count,
                          PctMoment *moments, size_t room);

/* The change points that stand for moments in a run's steps: a moment that doesn't occur is `most`, 1 to
   100000. `points` has as many places as there are moments, at most 7. PCT_DONE, PCT_BAD, PCT_NO_MEMORY. */
uint32_t pct_tell_points(const PctEvent *steps, size_t step_count, uint32_t most, const PctMoment *moments, size_t moment_count,
                         uint32_t *points, size_t point_count);

/* How many orders of 1 to 7 threads place a given one last. PCT_DONE, PCT_BAD. */
PctCount pct_tell_order_count(uint32_t threads);

/* The order at a place, from 0, among those that place `low` last. `order` has room for just `threads`.
   PCT_DONE, PCT_BAD, PCT_NO_MEMORY. */
uint32_t pct_tell_order(uint32_t threads, uint32_t low, uint32_t place, uint32_t *order, size_t order_count);

/* In how many choices of an order of `threads` (1 to 7) and `points` points (0 to 7) in 1..steps (to 100000) a
   certified directive gives its verdict at least once: threads * steps^points. PCT_DONE, PCT_BAD. */
PctBound pct_tell_bound(uint32_t threads, uint32_t steps, uint32_t points);

/* The data races of a run's steps, by happens-before: at most one for each variable. PCT_DONE, PCT_NO_ROOM,
   PCT_BAD, PCT_NO_MEMORY. */
PctCount pct_tell_races(const PctDeal *deal, const int64_t *variables, size_t variable_count, const int64_t *semaphores,
                        size_t semaphore_count, const int64_t *barriers, size_t barrier_count,
                        const PctEvent *steps, size_t step_count, PctRace *races, size_t room);

/* An order in which a run's steps take the mutexes, or a cycle of nestings; the count is of the list that
   the kind says. PCT_DONE, PCT_NO_ROOM, PCT_BAD, PCT_NO_MEMORY. */
PctLocks pct_tell_lock_order(const PctDeal *deal, const int64_t *variables, size_t variable_count, const int64_t *semaphores,
                             size_t semaphore_count, const int64_t *barriers, size_t barrier_count,
                             const PctEvent *steps, size_t step_count, uint32_t *mutexes, size_t mutex_room,
                             PctNesting *nestings, size_t nesting_room);

/* The failures among at most 100000 rows, in groups by their verdicts, the most frequent first. PCT_DONE, PCT_NO_ROOM,
   PCT_BAD, PCT_NO_MEMORY. */
PctCount pct_tell_groups(const PctRow *rows, size_t row_count, PctGroup *groups, size_t room);

#ifdef __cplusplus
}
#endif
#endif
