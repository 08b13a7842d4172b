/*
 * Who goes when nobody can; threads that look again and again; time.
 *
 * A thread that looks and sees nothing new rests: it waits at its semaphore until another thread
 * changes something. A timed wait is such a wait, too. Where an ask would leave nobody who can go,
 * who brings it wakes one of them first, by a step: so the book is never stuck but in a deadlock,
 * and no thread is needed beside the program's. All that stands in `ask`, the one place to change
 * for a call of the library by which a thread goes below all others.
 */
#include "stand.h"

#define MOST_IN_ROW 500     /* steps of one thread, while others could go */
#define MOST_PLAIN 20000    /* accesses without a step */
#define MOST_FRUITLESS 1000 /* wakings after which nothing changed */
#define MOST_ALONE 1000000  /* looks of a thread while no other can go */
#define MOST_EARLY 2        /* waits of a thread that end early */

static uint64_t stamps, last_event, now_, chance;
static uint32_t fruitless, alone_looks, last_seat, in_row;
static bool is_solo; /* no other thread can go, and this one looks on without steps */
static uint64_t news =
    UINT64_MAX; /* a bit for each thread since whose last look something changed */

uint32_t draw_below(uint32_t most) {
    if (!chance) chance = shared->plan.seed * 0x9e3779b97f4a7c15U + 88172645463325252U;
    chance ^= chance << 13;
    chance ^= chance >> 7;
    chance ^= chance << 17;
    return (uint32_t)((chance >> 16) % most);
}

bool is_alone(void) { return live_count() == 1 || is_solo; }

/* --- Time: by the program's clock, which moves when it is read and to the end of each wait --- */

uint64_t virtual_now(void) {
    if (!now_) now_ = (uint64_t)1700000000 * NANOSECONDS;
    return now_;
}

void pass_time(uint64_t nanoseconds_) { now_ = virtual_now() + nanoseconds_; }

/* --- Who goes when nobody can --- */

static bool can_somebody_go(uint32_t kind, uint32_t object) {
    mine()->step.kind = kind;
    mine()->step.object = object;
    mine()->state = SEAT_BROUGHT;
    for (uint32_t t = 0; t < seat_count(); t++)
        if (is_enabled(t)) return true;
    return false;
}

static void end_time(Seat *s) {
    s->is_woken = s->has_timed_out = true;
    s->waits_at = NULL;
    if (s->wait == WAITS_FOR_TIME && s->deadline > virtual_now()) now_ = s->deadline;
}

static bool waits(const Seat *s, Wait wait) {
    return s->is_live && s->wait == wait && !s->is_woken;
}

/* Of those that look, who looked longest ago; where `is_fresh`, that hasn't since something
 * happened. */
static uint32_t looker(bool is_fresh) {
    uint32_t best = NOBODY;
    for (uint32_t t = 0; t < seat_count(); t++)
        if (waits(&seats[t], WAITS_FOR_CHANGE) && (!is_fresh || seats[t].looked < last_event) &&
            (best == NOBODY || seats[t].looked < seats[best].looked))
            best = t;
    return best;
}

static uint32_t earliest(void) {
    uint32_t best = NOBODY;
    for (uint32_t t = 0; t < seat_count(); t++)
        if (waits(&seats[t], WAITS_FOR_TIME) &&
            (best == NOBODY || seats[t].deadline < seats[best].deadline))
            best = t;
    return best;
}

static uint32_t choose_waker(void) {
    uint32_t t = looker(true);
    if (t != NOBODY) return t;
    t = earliest();
    return t != NOBODY ? t : looker(false);
}

/* Wakes, of those who wait for a change or a time, who is next; NOBODY where there is none: a
 * deadlock. */
static uint32_t wake_by_itself(void) {
    uint32_t t = choose_waker();
    if (t == NOBODY) return NOBODY;
    Seat *s = &seats[t];
    s->looked = ++stamps;
    if (s->wait == WAITS_FOR_TIME) {
        end_time(s);
        last_event = ++stamps;
    }
    s->is_woken = true;
    if (++fruitless > MOST_FRUITLESS) end_run(LIVELOCK, "nobody changes anything");
    return t;
}

static bool is_only_looker(void) { return looker(false) == NOBODY && earliest() == NOBODY; }

static void count_in_row(void) {
    in_row = last_seat == (uint32_t)self.seat ? in_row + 1 : 0;
    last_seat = (uint32_t)self.seat;
}

/* Wakes others while nobody can go; whether it is this thread itself that has waited longest. */
static bool wake_before(uint32_t kind, uint32_t object) {
    while (!can_somebody_go(kind, object)) {
        uint32_t t = wake_by_itself();
        if (t == NOBODY) return false;
        if (t == (uint32_t)self.seat) return true;
        bring(PCT_ASK_UP, t, seats[t].has_timed_out ? "time passes for" : "nobody else can go but",
              NULL);
    }
    return false;
}

int64_t ask(uint32_t kind, uint32_t object, const char *what, const volatile void *at) {
    if (kind != PCT_ASK_YIELD && kind != PCT_ASK_DOWN) is_solo = false;
    if (wake_before(kind, object)) {
        is_solo = mine()->wait == WAITS_FOR_CHANGE && is_only_looker();
        alone_looks = 0;
        kind = PCT_ASK_YIELD;
        object = 0;
    }
    int64_t answer = bring(kind, object, what, at);
    count_in_row();
    begin_budget();
    return answer;
}

void leave_to_others(void) {
    wake_before(PCT_ASK_DOWN, (uint32_t)self.seat);
    leave_seat();
}

/* --- Waiting --- */

void begin_wait(Wait wait, const volatile void *at) {
    Seat *s = mine();
    is_solo = false;
    s->wait = wait;
    s->waits_at = at;
    s->is_woken = s->has_timed_out = s->is_early = false;
    s->since = ++stamps;
    s->deadline = UINT64_MAX;
    s->mask = 0;
    if (s->is_cancelled && !s->is_uncancellable && wait != WAITS_FOR_CHANGE) s->is_woken = true;
}

/* With --timeouts any a wait may end early: it asks for no more than its turn then. */
void wait_until(uint64_t deadline) {
    Seat *s = mine();
    s->deadline = deadline;
    s->is_early = shared->plan.is_early && s->early_ends < MOST_EARLY && draw_below(2) == 0;
}

bool finish_wait(const char *what, const volatile void *at) {
    Seat *s = mine();
    while (!s->is_woken) {
        uint32_t seat = (uint32_t)self.seat;
        ask(s->is_early ? PCT_ASK_YIELD : PCT_ASK_DOWN, s->is_early ? 0 : seat, what, at);
        if (s->is_early && !s->is_woken) {
            s->early_ends++;
            end_time(s);
        }
    }
    s->wait = WAITS_FOR_NOTHING;
    s->waits_at = NULL;
    return s->has_timed_out;
}

/* Its semaphore is raised where it waits there already, and not where it sees before that it is
 * woken. */
void wake(uint32_t seat, const char *what) {
    Seat *s = &seats[seat];
    bool is_down = s->step.kind == PCT_ASK_DOWN && s->state != SEAT_AWAY;
    s->is_woken = true;
    s->waits_at = NULL;
    ask(is_down ? PCT_ASK_UP : PCT_ASK_YIELD, is_down ? seat : 0, what, NULL);
}

static bool waits_at(const Seat *s, const volatile void *at, uint32_t mask) {
    return s->wait != WAITS_FOR_NOTHING && s->waits_at == at && !s->is_woken &&
           (mask == 0 || (s->mask & mask));
}

uint32_t waiter_at(const volatile void *at, uint32_t mask) {
    uint32_t found[MOST_SEATS], count = 0, best = NOBODY;
    for (uint32_t t = 0; t < seat_count(); t++) {
        if (!waits_at(&seats[t], at, mask)) continue;
        found[count++] = t;
        if (best == NOBODY || seats[t].since < seats[best].since) best = t;
    }
    return shared->plan.is_chaotic && count ? found[draw_below(count)] : best;
}

/* Those who wait now: one that comes meanwhile waits for the next time. */
uint32_t wake_all(const volatile void *at, const char *what) {
    uint32_t count = 0;
    uint64_t all = 0;
    for (uint32_t t = 0; t < seat_count(); t++) {
        if (!waits_at(&seats[t], at, 0)) continue;
        all |= BIT(t);
        seats[t].is_woken = true;
        seats[t].waits_at = NULL;
    }
    for (; all; all &= all - 1, count++) wake((uint32_t)__builtin_ctzll(all), what);
    return count;
}

/* --- Looking again and again --- */

void let_look(void) {
    news |= ~BIT(self.seat);
    is_solo = false;
    for (uint32_t t = 0; t < seat_count(); t++)
        if (t != (uint32_t)self.seat && waits(&seats[t], WAITS_FOR_CHANGE)) wake(t, "lets look");
}

void changed(void) {
    mine()->seen_count = 0;
    fruitless = 0;
    last_event = ++stamps;
    let_look();
}

void rest(const char *what) {
    begin_wait(WAITS_FOR_CHANGE, NULL);
    mine()->looked = ++stamps;
    news &= ~BIT(self.seat);
    mine()->seen_count = 0;
    finish_wait(what, NULL);
}

static Seen *seen_here(uint64_t value) {
    Seat *s = mine();
    for (uint32_t i = 0; i < s->seen_count; i++)
        if (s->seen[i].pc == self.pc && s->seen[i].value == value) return &s->seen[i];
    if (s->seen_count == MOST_SEEN) s->seen_count = 0;
    Seen *seen = &s->seen[s->seen_count++];
    *seen = (Seen){ .pc = self.pc, .value = value };
    return seen;
}

void looked(uint64_t value, uint32_t most) {
    if (is_solo) {
        shared->moves++;
        if (++alone_looks > MOST_ALONE)
            end_run(LIVELOCK, "a thread looks again and again, and no other can go");
        return;
    }
    if (news & BIT(self.seat)) {
        news &= ~BIT(self.seat);
        mine()->seen_count = 0;
    }
    if (++seen_here(value)->count >= most) rest("rests");
}

void give_way(void) {
    if (in_row <= MOST_IN_ROW || is_alone()) return;
    in_row = 0;
    rest("gives way");
}

/* Only where plain accesses are looked at for races alone is there no more to do of most of them.
 */
void begin_budget(void) { self.budget = shared->plan.plain == PLAIN_RACES ? MOST_PLAIN : 0; }

void count_access(void) {
    bool is_long = shared->plan.plain == PLAIN_RACES || -self.budget > MOST_PLAIN;
    if (!is_long) return;
    begin_budget();
    if (!is_alone()) rest("computes long, and rests");
}

void step(const char *what, const volatile void *at) {
    give_way();
    if (!is_alone()) ask(PCT_ASK_YIELD, 0, what, at);
    if (mine()->signals) take_signals();
}
