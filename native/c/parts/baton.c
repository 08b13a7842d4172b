/* Part of pct_test.c: the baton, and the steps that bring it. */

static void wait_at(sem_t *gate) {
    while (sem_wait(gate) != 0) continue;
}

/* Whether a thread that looks again and again may see what a step changed. */
static bool is_change(const PctAsk *ask, int64_t answer) {
    bool is_raised = ask->kind == PCT_ASK_UP || ask->kind == PCT_ASK_DOWN;
    if (is_raised && run->waits & BIT(ask->a)) return false;
    return !(IDLE & BIT(ask->kind)) && (answer == 1 || !(TRIES & BIT(ask->kind)));
}

/* A step of a replay, beside that of the trace. */
static void print_step(const PctEvent *step) {
    char said[400], *line = strsep(&written, "\n");
    snprintf(said, sizeof said, "%u %s", run->steps, step_text(step));
    printf("%s    %s\n", said, line_text(step->line));
    if (line && *line >= '0' && *line <= '9' && strcmp(said, line) != 0)
        printf("    the trace has %s\n", line);
    if (fflush(stdout) != 0) lost("standard output");
}

/* A thread's step was taken: it is logged, and done on the memory. */
static void took(uint32_t thread, int64_t answer) {
    Seat *seat = &run->seats[thread];
    Late *late = &seat->late;
    uint32_t kind = late->ask.kind;
    PctEvent *step = &run->log[run->steps++];
    *step = (PctEvent){ thread, late->line, late->ask, answer };
    run->baton = thread;
    late->state = AWAY;
    if (kind == PCT_ASK_UP || kind == PCT_ASK_DOWN || (kind == PCT_ASK_TRY_DOWN && answer))
        run->now[PCT_SEMAPHORES][late->ask.a] += kind == PCT_ASK_UP ? 1 : -1;
    seat->answer = is_access(late) ? late->old : answer;
    if (late->access == PCT_WAKE) seat->answer = (int64_t)wake_sleepers(late);
    seat->has_changed =
        is_access(late) ? perform(thread, late, answer) : is_change(&late->ask, answer);
    if (seat->has_changed) run->news |= ~BIT(thread);
    if (seat->has_changed) seat->sleeps = 0;
    if (run->plan.policy == BY_LIST) print_step(step);
}

static bool is_same_step(const PctEvent *one, const PctEvent *other) {
    const PctAsk *ask = &one->ask, *asked = &other->ask;
    return one->thread == other->thread && one->line == other->line &&
           one->answer == other->answer && ask->kind == asked->kind && ask->a == asked->a &&
           ask->b == asked->b && ask->x == asked->x && ask->y == asked->y;
}

/* Takes the step of a thread whose turn it is; whether the run goes on with it. Between its post
   and its turn others may have gone on, where somebody joins the thread; then what it asks is
   posted anew. */
static bool take(uint32_t thread) {
    Late *late = &run->seats[thread].late;
    PctEvent posted = { .ask = late->ask }, now = posted;
    look_again(thread);
    now.ask = late->ask;
    if (!is_same_step(&posted, &now)) rebuild();
    turn(pct_book_take(&child.book, thread));
    took(thread, child.turn.answer);
    return child.turn.status != PCT_ENDED;
}

static void write_all_traces(void) {
    if (!traces) return;
    bool is_written = fputs(trace_text(run->log, run->steps), traces) >= 0;
    if (!is_written || fflush(traces) != 0) lost(test.traces);
}

/* The only place where asks are posted, as the book waits for them, and steps taken. Who has the
   baton next; nobody where the run is over. Where it didn't pass, the child ends. */
static uint32_t next_thread(void) {
    while (child.turn.choice == PCT_CHOICE_TURN || child.turn.choice == PCT_CHOICE_WAITS) {
        uint32_t thread = child.turn.thread;
        Late *late = &run->seats[thread].late;
        bool is_turn = child.turn.choice == PCT_CHOICE_TURN;
        if (is_turn && take(thread)) return thread;
        if (is_turn) continue;
        if (late->state != BROUGHT)
            sentence("a fault of the layer: %s brought no ask", who(thread));
        look(late);
        late->state = late->ask.kind == PCT_ASK_NONE ? ENDED : POSTED;
        turn(pct_book_post(&child.book, thread, late->line, &late->ask));
    }
    DEMAND(pct_book_outcome(&child.book, &run->outcome));
    run->end = OUTCOME;
    write_all_traces();
    if (run->outcome.kind != PCT_PASSED) leave(OUTCOME);
    sem_post(&child.over);
    return NOBODY;
}

/* Brings the baton back with an ask; it returns with the baton and what the step gives, or at once
   where the thread ends. Declared threads come to their first asks one after the other. */
static int64_t bring(uint32_t me, Late late) {
    bool is_first = run->begun < test.declared, ends = late.ask.kind == PCT_ASK_NONE;
    late.state = BROUGHT;
    run->seats[me].late = late;
    shared->asks++;
    uint32_t next = is_first && ++run->begun < test.declared ? run->begun : next_thread();
    if (next != NOBODY && next != me) {
        run->baton = next;
        sem_post(&child.goes[next]);
    }
    if (next != me && !ends) wait_at(&child.goes[me]);
    return run->seats[me].answer;
}

/* Where the thread's last step changed something, those who wait for a change look again. */
static void wake_waiters(uint32_t me) {
    Seat *seat = &run->seats[me];
    uint64_t waiters = seat->has_changed ? run->waiting : 0;
    seat->has_changed = false;
    for (; waiters; waiters &= waiters - 1) {
        uint32_t waiter = (uint32_t)__builtin_ctzll(waiters);
        PctAsk up = PCT_ASK(PCT_ASK_UP, run->seats[waiter].semaphore - 1, 0, 0, 0);
        if (!(run->waiting & BIT(waiter))) continue;
        run->waiting &= ~BIT(waiter);
        bring(me, (Late){ .ask = up, .line = seat->late.line });
    }
}

/* --- Steps --- */

/* Brings what the thread here asks; what its step gives. */
static int64_t ask_at(PctPlace place, Late late) {
    uint32_t me = me_at(place);
    late.line = line_at(me, place);
    wake_waiters(me);
    return bring(me, late);
}

static int64_t step(uint32_t kind, uint32_t a, uint32_t b, PctPlace place) {
    return ask_at(place, (Late){ .ask = PCT_ASK(kind, a, b, 0, 0) });
}

void pct_step_at(PctPlace place) { step(PCT_ASK_YIELD, 0, 0, place); }

void pct_check_step(bool holds, PctPlace place) {
    step(holds ? PCT_ASK_CHECK_HOLDS : PCT_ASK_CHECK_FAILS, 0, 0, place);
}

/* The semaphore at which a thread waits for others' steps. */
static uint32_t own_semaphore(uint32_t me, PctPlace place) {
    uint32_t *own = &run->seats[me].semaphore;
    if (!*own) *own = 1 + new_number(PCT_SEMAPHORES, 0, "waits", place);
    run->waits |= BIT(*own - 1);
    return *own - 1;
}

/* Where others have changed something since the thread's last call it is a step that touches
   nothing, so a change between a look and its call is seen. */
void pct_yield_at(PctPlace place) {
    uint32_t me = me_at(place);
    wake_waiters(me);
    bool has_news = run->news & BIT(me);
    run->news &= ~BIT(me);
    if (has_news) {
        pct_step_at(place);
        return;
    }
    uint32_t semaphore = own_semaphore(me, place);
    run->waiting |= BIT(me);
    step(PCT_ASK_DOWN, semaphore, 0, place);
}

void pct_sleep_at(PctPlace place) {
    uint32_t me = me_at(place), *sleeps = &run->seats[me].sleeps;
    if (run->news & BIT(me)) *sleeps = 0;
    if (*sleeps == MOST_SLEEPS) {
        pct_yield_at(place);
        return;
    }
    run->news &= ~BIT(me);
    pct_step_at(place);
    ++*sleeps;
}

static uint32_t variable_at(const void *at) {
    uint32_t number = 0, many = run->many[PCT_VARIABLES];
    while (number < many && run->variables[number].at != at) number++;
    return number < many ? number : NOBODY;
}

/* The threads that are about to touch a variable. */
static uint64_t about_to_touch(uint32_t number) {
    uint64_t threads = 0;
    for (uint32_t i = 0; i < run->threads; i++) {
        const Late *late = &run->seats[i].late;
        bool is_about = late->state == BROUGHT || late->state == POSTED;
        if (is_about && is_access(late) && late->at == run->variables[number].at) threads |= BIT(i);
    }
    return threads;
}

/* A new variable at an access, or NOBODY. */
static uint32_t new_variable(const Late *late, PctPlace place) {
    uint32_t number = new_number(PCT_VARIABLES, code_of(late->old, late->form),
                                 called_of(late->at, place.name), place);
    if (number == NOBODY) return NOBODY;
    run->variables[number].at = late->at;
    run->variables[number].bytes = late->form & 15;
    run->variables[number].step = 0;
    run->variables[number].touched = 0;
    run->variables[number].left = late->old;
    return number;
}

/* Whether what stands at the address of a variable is another one by now: one of another size, or
   one whose memory isn't what its steps left, as long as this thread alone has touched it, since it
   was made anew then. */
static bool is_made_anew(uint32_t number, const Late *late, uint32_t me) {
    uint64_t others = about_to_touch(number) & ~BIT(me), touched = run->variables[number].touched;
    bool is_same_size = run->variables[number].bytes == (late->form & 15);
    if (!is_same_size || late->old == run->variables[number].left) return !is_same_size && !others;
    return !others && !(touched & ~BIT(me));
}

/* Finds the variable of an access. Where none is left, its step touches nothing. */
static void find_variable(Late *late, uint32_t me, PctPlace place) {
    uint32_t number = variable_at(late->at), bytes = late->form & 15;
    read_memory(late);
    if (late->is_forbidden) return;
    if (number != NOBODY && is_made_anew(number, late, me)) {
        forget_variable(number);
        number = NOBODY;
    }
    if (number == NOBODY) number = new_variable(late, place);
    if (number == NOBODY) return;
    if (run->variables[number].bytes != bytes)
        sentence("%s is used with %u bytes, and was with %u", run->names[PCT_VARIABLES][number],
                 bytes, run->variables[number].bytes);
    late->ask = (PctAsk)PCT_ASK(PCT_ASK_READ, number, 0, 0, 0);
}

/* A step of memory, whose caller returns to that address, from that frame. */
static int64_t access_from(void *caller, void *frame, Late late, PctPlace place) {
    late.ask.kind = PCT_ASK_YIELD;
    late.x = normal(late.x, late.form);
    late.y = normal(late.y, late.form);
    if (!own_seat && !child.runs) {
        read_memory(&late);
        if (late.is_forbidden) report_forbidden(&late, caller, frame);
        write_memory(&late);
        return late.old;
    }
    uint32_t me = me_at(place);
    wake_waiters(me);
    if (late.access != PCT_WAKE) find_variable(&late, me, place);
    int64_t old = ask_at(place, late);
    if (run->seats[me].late.is_forbidden) report_forbidden(&late, caller, frame);
    return old;
}

#define ACCESS_FROM_CALLER(late) \
    access_from(__builtin_return_address(0), __builtin_frame_address(0), (late), place)

int64_t pct_access(PctAccess access, volatile void *at, unsigned form, int64_t x, int64_t y,
                   PctPlace place) {
    Late late = { .access = access, .form = form, .at = (void *)at, .x = x, .y = y };
    return ACCESS_FROM_CALLER(late);
}

bool pct_cas_at(volatile void *at, unsigned form, int64_t expected, int64_t value, PctPlace place) {
    Late late = { .access = PCT_CAS, .form = form, .at = (void *)at, .x = expected, .y = value };
    return ACCESS_FROM_CALLER(late) == normal(expected, form);
}

bool pct_compare_at(volatile void *at, unsigned form, void *expected, int64_t value,
                    PctPlace place) {
    int64_t wanted = 0;
    memcpy(&wanted, expected, form & 15);
    Late late = { .access = PCT_CAS, .form = form, .at = (void *)at, .x = wanted, .y = value };
    int64_t old = ACCESS_FROM_CALLER(late);
    if (old == normal(wanted, form)) return true;
    memcpy(expected, &old, form & 15);
    return false;
}

int pct_wait_at(volatile void *at, unsigned form, int64_t value, PctPlace place) {
    uint32_t me = me_at(place);
    if (pct_access(PCT_LOAD, at, form, 0, 0, place) != normal(value, form)) return EAGAIN;
    uint32_t semaphore = own_semaphore(me, place);
    run->seats[me].sleeps_at = at;
    run->seats[me].sleeps_since = run->steps;
    step(PCT_ASK_DOWN, semaphore, 0, place);
    return 0;
}

int pct_wake_at(volatile void *at, unsigned most, PctPlace place) {
    uint32_t me = me_at(place);
    uint64_t woken = (uint64_t)pct_access(PCT_WAKE, at, 4 | PCT_UNSIGNED, most, 0, place);
    uint32_t first = run->seats[me].late.ask.a;
    for (uint64_t rest = woken; rest; rest &= rest - 1) {
        uint32_t semaphore = run->seats[__builtin_ctzll(rest)].semaphore - 1;
        if (semaphore != first) step(PCT_ASK_UP, semaphore, 0, place);
    }
    return __builtin_popcountll(woken);
}

int pct_futex_wait_at(volatile uint32_t *at, uint32_t value, PctPlace place) {
    return pct_wait_at(at, 4 | PCT_UNSIGNED, value, place);
}

int pct_futex_wake_at(volatile uint32_t *at, unsigned most, PctPlace place) {
    return pct_wake_at(at, most, place);
}
