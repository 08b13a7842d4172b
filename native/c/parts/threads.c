/* Part of pct_test.c: threads. */

/* Destructors of the test's own keys may still ask: this one posts the end in the last round but
   one, since the thread sanitizer takes leave of a thread in the last. */
static void end_thread(void *rounds) {
    uint32_t me = own_seat - 1;
    if (child.is_forked) return;
    if ((uintptr_t)rounds > 1) {
        pthread_setspecific(at_end, (void *)((uintptr_t)rounds - 1));
        return;
    }
    wake_waiters(me);
    bring(me, (Late){ .line = run->seats[me].late.line });
    own_seat = 0;
}

/* What stood on the stack of a thread that has ended is gone where another one gets that stack. */
static void forget_stack(void) {
    pthread_attr_t attributes;
    void *lowest;
    size_t bytes;
    if (!run->many[PCT_VARIABLES] || pthread_getattr_np(pthread_self(), &attributes)) return;
    if (!pthread_attr_getstack(&attributes, &lowest, &bytes)) forget(lowest, bytes);
    pthread_attr_destroy(&attributes);
}

static void *thread_body(void *number) {
    uint32_t me = (uint32_t)(uintptr_t)number;
    Seat *seat = &run->seats[me];
    pthread_setspecific(at_end, (void *)(uintptr_t)(PTHREAD_DESTRUCTOR_ITERATIONS - 1));
    wait_at(&child.goes[me]);
    own_seat = me + 1;
    seat->task = (pid_t)syscall(SYS_gettid);
    forget_stack();
    if (me >= test.declared)
        seat->value = seat->function(seat->argument);
    else
        test.functions[me]();
    return NULL;
}

static void start_real(uint32_t thread) {
    void *number = (void *)(uintptr_t)thread;
    if (pthread_create(&run->seats[thread].real, NULL, thread_body, number) != 0)
        sentence("the system has no further thread");
}

/* By a directive a thread has the number that the kept run gave to who was created by the same
   thread, as the same one, and another one than all those where that run has none. */
static uint32_t number_of_thread(uint32_t me) {
    uint32_t nth = ++run->seats[me].children, fresh = run->threads, number = test.declared;
    for (; run->plan.policy == BY_DIRECTIVE && number < run->plan.threads; number++) {
        const Seat *seat = &kept.seats[number];
        if (seat->nth == nth && seat->parent == me) return number;
        if (seat->nth && fresh == number) fresh++;
    }
    return fresh;
}

int pct_create_at(pct_thread_t *thread, const pthread_attr_t *attr, void *(*function)(void *),
                  void *argument, PctPlace place) {
    uint32_t me = me_at(place), number = number_of_thread(me), line = line_at(me, place);
    int state = PTHREAD_CREATE_JOINABLE;
    if (number >= MOST) sentence("%s: a run has at most 64 threads", line_text(line));
    if (number >= run->threads) run->threads = number + 1;
    if (number >= run->plan.threads) leave(MORE_THREADS);
    if (attr) pthread_attr_getdetachstate(attr, &state);
    Seat *seat = &run->seats[number];
    seat->function = function;
    seat->argument = argument;
    seat->last = run->seats[me].last;
    seat->late.line = line; /* that of the thread's `begin` */
    seat->parent = me;
    seat->nth = run->seats[me].children;
    seat->is_detached = state != PTHREAD_CREATE_JOINABLE;
    give_name(PCT_THREADS, number, called_of(thread, place.name));
    *thread = number;
    step(PCT_ASK_START, number, 0, place);
    start_real(number);
    return 0;
}

/* Whether it may be joined or detached: 0, ESRCH or EINVAL. */
static int is_joinable(pct_thread_t thread) {
    if (thread >= run->threads) return ESRCH;
    return run->seats[thread].is_detached || run->seats[thread].is_joined ? EINVAL : 0;
}

int pct_join_at(pct_thread_t thread, void **value, PctPlace place) {
    int refused = thread == me_at(place) ? EDEADLK : is_joinable(thread);
    step(refused ? PCT_ASK_YIELD : PCT_ASK_JOIN, refused ? 0 : thread, 0, place);
    if (refused) return refused;
    run->seats[thread].is_joined = thread >= test.declared;
    if (value) *value = run->seats[thread].value;
    return 0;
}

int pct_detach_at(pct_thread_t thread, PctPlace place) {
    me_at(place);
    int refused = is_joinable(thread);
    if (!refused) run->seats[thread].is_detached = true;
    return refused;
}

pct_thread_t pct_self(void) { return me_at((PctPlace){ NULL, 0, NULL }); }

void pct_exit(void *value) {
    run->seats[pct_self()].value = value;
    pthread_exit(value);
}
