/* Part of pct_test.c: a child, which makes runs. */

/* The place of the search's next run among all. */
static uint32_t next_of_search(void) {
    return (search.first + search.all - shared->left) % search.all;
}

/* The search goes on with the next seed. */
static void pass_on(void) {
    if (test.campaign)
        shared->rows[next_of_search()] = (PctRow){ run->plan.seed, run->steps, run->outcome };
    shared->left--;
}

/* Draws the order and the change points of the search's next seed, depth after depth. */
static void draw(Plan *plan) {
    uint32_t next = next_of_search();
    plan->seed = test.from + next % test.seeds;
    plan->depth = (uint32_t)(search.least_depth + next / test.seeds);
    plan->threads = search.threads;
    plan->point_count = plan->depth - 1;
    DEMAND(pct_draw(plan->seed, plan->threads, search.steps, plan->depth, plan->order,
                    plan->threads, plan->points, plan->point_count));
}

static void make_run(void) {
    Plan plan = run->plan;
    memset(run, 0, offsetof(Run, log));
    shared->stamp++;
    if (plan.policy == BY_SEED) draw(&plan);
    run->plan = plan;
    run->many[PCT_THREADS] = plan.threads;
    run->threads = test.declared;
    run->news = UINT64_MAX;
    for (uint32_t thread = 0; thread < MOST; thread++) {
        Seat *seat = &run->seats[thread];
        bool is_declared = thread < test.declared;
        seat->last = test.place;
        seat->late = (Late){ PCT_ASK(PCT_ASK_BEGIN, 0, 0, 0, 0), .state = POSTED };
        seat->line = seat->late.line = number_of_place(test.place.file, test.place.line, false);
        if (is_declared) give_name(PCT_THREADS, thread, test.names[thread]);
        if (is_declared) seat->late.state = AWAY;
    }
    if (test.reset) test.reset();
    child.runs = true;
    rebuild();
    for (uint32_t thread = 0; thread < test.declared; thread++) start_real(thread);
    sem_post(&child.goes[0]);
    wait_at(&child.over);
    for (uint32_t thread = 0; thread < run->threads; thread++)
        if (run->seats[thread].late.state == ENDED) pthread_join(run->seats[thread].real, NULL);
    child.runs = false;
}

static void mark_forked(void) { child.is_forked = true; }

/* What a process that makes runs needs; they go on the processor that it has, since one thread at a
   time goes. */
static void be_ready_to_run(void) {
    cpu_set_t here;
    CPU_ZERO(&here);
    CPU_SET(sched_getcpu(), &here);
    sched_setaffinity(0, sizeof here, &here);
    if (__sanitizer_set_death_callback) __sanitizer_set_death_callback(mark_sanitized);
    be_ready_to_look();
    child.process = getpid();
    pthread_atfork(NULL, NULL, mark_forked);
    pthread_key_create(&at_end, end_thread);
    sem_init(&child.over, 0, 0);
    for (uint32_t thread = 0; thread < MOST; thread++) sem_init(&child.goes[thread], 0, 0);
}

/* Makes runs until one doesn't pass. What they print is dropped, but for those that are told. A
   child dies with its runner. */
static void __attribute__((noreturn)) be_child(void) {
    prctl(PR_SET_PDEATHSIG, SIGKILL);
    if (getppid() != runner) _exit(1);
    int nothing = run->plan.is_loud ? -1 : open("/dev/null", O_WRONLY);
    if (nothing >= 0 && (dup2(nothing, 1) < 0 || dup2(nothing, 2) < 0)) _exit(1);
    be_ready_to_run();
    bool is_search = run->plan.policy == BY_SEED;
    do {
        make_run();
        if (is_search) pass_on();
    } while (is_search && shared->left > 0 && !test.isolate);
    leave(OUTCOME);
}
