/*
 * The book of a run and the baton. Who has the baton runs; it goes with the answer of a step to the
 * thread that took it, and comes back with what that thread asks next. An ask is posted when the
 * book waits for it.
 *
 * A seat that no thread has waits at its own semaphore, which who creates a thread raises; a thread
 * that has ended leaves its seat so. A wait for another thread is one at the own semaphore, too; so
 * only mutexes and read-write locks are the book's.
 */
#include "stand.h"

#include <limits.h>
#include <linux/futex.h>
#include <stdarg.h>
#include <stdio.h>
#include <sys/syscall.h>
#include <unistd.h>

Shared *shared;
Seat seats[MOST_SEATS];
__thread Self self = { .seat = -1 };

static PctBook book;
static PctTurn turn;
static uint32_t used, live; /* seats that a thread has had; threads that haven't ended */

/* What the book knows of objects, by which is seen whether somebody can go. */
static uint32_t tokens[MOST_SEATS], readers[MOST_SEATS];
static bool is_held[MOST_SEATS], is_written[MOST_SEATS];

uint32_t seat_count(void) { return used; }
uint32_t live_count(void) { return live; }

/* The process of the program itself ends, without its handlers: other threads stand in the midst of
 * calls. */
void end_run(End end, const char *form, ...) {
    va_list words;
    va_start(words, form);
    vsnprintf(shared->told, sizeof shared->told, form, words);
    va_end(words);
    for (uint32_t t = 0; t < used; t++)
        if (seats[t].is_live && seats[t].state >= SEAT_BROUGHT) shared->waiting[t] = seats[t].step;
    shared->end = end;
    syscall(SYS_exit_group, 99);
    __builtin_unreachable();
}

/* --- Whether an ask can be granted --- */

bool is_enabled(uint32_t seat) {
    const Step *step = &seats[seat].step;
    if (seats[seat].state == SEAT_AWAY) return true;
    switch (step->kind) {
    case PCT_ASK_LOCK: return !is_held[step->object];
    case PCT_ASK_DOWN: return tokens[step->object] > 0;
    case PCT_ASK_RD_LOCK: return !is_written[step->object];
    case PCT_ASK_WR_LOCK: return !is_written[step->object] && readers[step->object] == 0;
    default: return true;
    }
}

static void follow_lock(const Step *step, bool is_taken) {
    switch (step->kind) {
    case PCT_ASK_LOCK:
    case PCT_ASK_TRY_LOCK: is_held[step->object] |= is_taken; break;
    case PCT_ASK_UNLOCK: is_held[step->object] = false; break;
    case PCT_ASK_RD_LOCK:
    case PCT_ASK_TRY_RD_LOCK: readers[step->object] += is_taken; break;
    case PCT_ASK_WR_LOCK:
    case PCT_ASK_TRY_WR_LOCK: is_written[step->object] |= is_taken; break;
    case PCT_ASK_RW_UNLOCK:
        if (is_written[step->object]) is_written[step->object] = false;
        else readers[step->object]--;
        break;
    }
}

static bool is_try(uint32_t kind) {
    return kind == PCT_ASK_TRY_LOCK || kind == PCT_ASK_TRY_RD_LOCK || kind == PCT_ASK_TRY_WR_LOCK;
}

static void follow(const Step *step, int64_t answer) {
    if (step->kind == PCT_ASK_DOWN) tokens[step->object]--;
    else if (step->kind == PCT_ASK_UP) tokens[step->object]++;
    else follow_lock(step, !is_try(step->kind) || answer == 1);
}

/* --- The book --- */

static void set_turn(PctTurn next) {
    turn = next;
    if (next.status != PCT_DONE && next.status != PCT_ENDED && next.status != PCT_POSTED)
        end_run(LAYER_FAULT, "the book refuses a call by %u", next.status);
}

static PctAsk ask_of(const Step *step) {
    return (PctAsk)PCT_ASK(step->kind, step->object, 0, 0, 0);
}

static void mix(uint64_t value) { shared->hash = (shared->hash ^ value) * 0x100000001b3U; }

static void end_by_book(void);

/* The step that the book has just granted. */
static void write_step(uint32_t seat) {
    int64_t answer = turn.answer;
    Seat *s = &seats[seat];
    follow(&s->step, answer);
    s->step.answer = (int32_t)answer;
    s->step.value = 0;
    s->answer = answer;
    s->state = SEAT_AWAY;
    shared->steps[shared->step_count++] = s->step;
    mix(seat * 64 + s->step.kind);
    mix(s->step.frames[0]);
    if (turn.status == PCT_ENDED) end_by_book();
}

/* What the run came to, where the book says that it is over; a run that just ends goes on to exit.
 */
static void end_by_book(void) {
    PctOutcome outcome;
    if (pct_book_outcome(&book, &outcome)) end_run(LAYER_FAULT, "the book has no outcome");
    switch (outcome.kind) {
    case PCT_STUCK: end_run(DEADLOCK, "nobody can go on");
    case PCT_CUT: end_run(CUT, "the run has more than %u steps", shared->plan.limit);
    case PCT_MISUSE: end_run(MISUSE, "a lock is let go by a thread that doesn't hold it");
    case PCT_DEPARTED:
        end_run(DEPARTED, "the listed thread can't go at step %u", shared->step_count + 1);
    default: end_run(LAYER_FAULT, "the book ends by %u", outcome.kind);
    }
}

/* Posts what a seat has brought, which may be its step. */
static bool post(uint32_t seat) {
    Seat *s = &seats[seat];
    if (s->state != SEAT_BROUGHT)
        end_run(LAYER_FAULT, "T%u brought nothing, at step %u", seat, shared->step_count + 1);
    PctAsk asked = ask_of(&s->step);
    s->state = SEAT_POSTED;
    set_turn(pct_book_step(&book, seat, 1, &asked));
    if (turn.status == PCT_POSTED) return false;
    write_step(seat);
    return true;
}

/* The thread that takes the next step; it is taken. */
static uint32_t next_seat(void) {
    for (;;) {
        uint32_t seat = turn.thread;
        if (turn.choice == PCT_CHOICE_WAITS) {
            if (post(seat)) return seat;
        } else if (turn.choice == PCT_CHOICE_TURN) {
            set_turn(pct_book_take(&book, seat));
            write_step(seat);
            return seat;
        } else {
            end_by_book();
        }
    }
}

/* A free seat's ask: until a thread is created in it. */
static void bring_free(uint32_t seat) {
    seats[seat].step =
        (Step){ .thread = seat, .kind = PCT_ASK_DOWN, .object = seat, .what = "begins" };
    seats[seat].state = SEAT_BROUGHT;
}

static uint32_t make_book(void) {
    static const int64_t none[MOST_SEATS];
    const Plan *plan = &shared->plan;
    uint32_t n = plan->seats, order[MOST_SEATS], count = plan->depth ? plan->depth - 1 : 0;
    PctDeal deal = { n, MOST_SEATS, 0, MOST_SEATS };
    if (plan->listed)
        return pct_book_by_list(&book, &deal, NULL, 0, none, n, NULL, 0, shared->list, plan->listed,
                                plan->limit);
    for (uint32_t t = 0; t < n; t++) order[t] = t;
    if (plan->depth) {
        uint32_t refused =
            pct_draw(plan->seed, n, plan->steps, plan->depth, order, n, shared->points, count);
        if (refused) return refused;
    }
    return pct_book_by_points(&book, &deal, NULL, 0, none, n, NULL, 0, order, n, shared->points,
                              count, plan->limit);
}

void open_book(void) {
    uint32_t refused = make_book();
    if (refused) end_run(LAYER_FAULT, "there is no book: %u", refused);
    for (uint32_t t = 1; t < shared->plan.seats; t++) bring_free(t);
    used = live = 1;
    shared->seat_count = 1;
    seats[0].is_live = true;
    seats[0].state = SEAT_AWAY;
    set_turn(pct_book_next(&book));
    self.seat = 0;
}

/* --- The baton --- */

static long futex(int *at, int operation, int value) {
    return REAL(syscall)(SYS_futex, at, operation, value, NULL, NULL, 0);
}

static void give_baton(uint32_t seat) {
    __atomic_store_n(&seats[seat].gate, 1, __ATOMIC_RELEASE);
    futex(&seats[seat].gate, FUTEX_WAKE_PRIVATE, 1);
}

void wait_for_baton(uint32_t seat) {
    while (!__atomic_load_n(&seats[seat].gate, __ATOMIC_ACQUIRE))
        futex(&seats[seat].gate, FUTEX_WAIT_PRIVATE, 0);
    seats[seat].gate = 0;
}

static void put_ask(Step asked) {
    Seat *s = mine();
    s->step = asked;
    keep_frames(s->step.frames);
    s->state = SEAT_BROUGHT;
    shared->moves++;
}

int64_t bring(uint32_t kind, uint32_t object, const char *what, const volatile void *at) {
    uint32_t seat = (uint32_t)self.seat;
    put_ask((Step){
        .thread = seat, .kind = kind, .object = object, .what = what, .at = (uintptr_t)at });
    uint32_t next = next_seat();
    if (next != seat) {
        give_baton(next);
        wait_for_baton(seat);
    }
    self.has_step = true;
    return mine()->answer;
}

void note_value(uint64_t value) {
    if (self.has_step) shared->steps[shared->step_count - 1].value = value;
    self.has_step = false;
    mix(value < 1U << 16 ? value
                         : 7); /* greater ones may be addresses, which another load may change */
}

void leave_seat(void) {
    uint32_t seat = (uint32_t)self.seat;
    seats[seat].is_live = false;
    live--;
    self.seat = -2;
    bring_free(seat);
    give_baton(next_seat());
}

/* One that no thread has had, as long as there is one. */
static uint32_t free_seat(void) {
    if (used < MOST_SEATS) return used;
    for (uint32_t t = 1; t < MOST_SEATS; t++)
        if (!seats[t].is_live) return t;
    return NOBODY;
}

uint32_t take_seat(void) {
    uint32_t seat = free_seat();
    if (seat == NOBODY)
        end_run(REFUSED, "more than %d threads at once: a run has at most so many", MOST_SEATS);
    if (seat >= shared->plan.seats) {
        shared->seat_count = seat + 1;
        end_run(MORE_SEATS, "a further thread");
    }
    if (seat == used) shared->seat_count = ++used;
    seats[seat].is_live = true;
    live++;
    return seat;
}
