/* Part of pct_test.c: the runner: children, and a search over seeds. */

static uint64_t children; /* that were made */

static const char *cause_of(int status, bool is_hung) {
    static const char *const SIGNALS[] = {
        [SIGSEGV] = "SIGSEGV", [SIGABRT] = "SIGABRT", [SIGBUS] = "SIGBUS",   [SIGFPE] = "SIGFPE",
        [SIGILL] = "SIGILL",   [SIGTRAP] = "SIGTRAP", [SIGKILL] = "SIGKILL", [SIGTERM] = "SIGTERM",
    };
    static char cause[80];
    uint32_t signal = WIFSIGNALED(status) ? (uint32_t)WTERMSIG(status) : 0;
    if (shared->is_sanitized) return *shared->summary ? shared->summary : "a sanitizer's report";
    if (!is_hung && signal < LENGTH(SIGNALS) && SIGNALS[signal]) return SIGNALS[signal];
    snprintf(cause, sizeof cause, signal ? "signal %u" : "exit(%u)",
             signal ? signal : (uint32_t)WEXITSTATUS(status));
    if (is_hung) snprintf(cause, sizeof cause, "no step for %u seconds", (uint32_t)test.patience);
    return cause;
}

/* The child died in its run, or the memory isn't what the steps left: to the trace that is an
   assertion which fails in the last line of who had the baton. */
static void died(const char *cause) {
    uint32_t thread = run->baton;
    uint32_t line = run->seats[thread].line;
    if (!line) line = number_of_place(test.place.file, test.place.line, false);
    if (run->end == GOES)
        snprintf(run->told, sizeof run->told, "%s after step %u, %s, %s", cause, run->steps,
                 who(thread), line_text(line));
    run->log[run->steps++] =
        (PctEvent){ .thread = thread, .line = line, .ask.kind = PCT_ASK_CHECK_FAILS };
    run->outcome = (PctOutcome){ .kind = PCT_FAILED, .thread = thread, .line = line };
    run->end = DIED;
    write_all_traces();
}

/* Waits for the end of a child: its status. One that makes no step for too long is killed. */
static int await_child(pid_t pid, bool *is_hung) {
    uint64_t asks = shared->asks, waited = 0; /* milliseconds */
    int status = 0;
    for (; waitpid(pid, &status, WNOHANG) == 0; waited++) {
        usleep(1000);
        if (asks != shared->asks) waited = 0;
        asks = shared->asks;
        if (waited == SILENT && !*is_hung) tell_silence(pid);
        *is_hung = *is_hung || waited >= test.patience * 1000;
        if (*is_hung) kill(pid, SIGKILL);
    }
    return status;
}

/* Makes a child, whose runs go by the plan; what became of the last run stands there. Whether that
   has failed. */
static bool make_child(Plan plan) {
    const uint64_t generation = ++children * 0x9e3779b97f4a7c15u;
    uint32_t left = shared->left;
    bool is_hung = false;
    run->plan = plan;
    run->end = GOES;
    shared->is_sanitized = false;
    *shared->summary = 0;
    shared->before = shared->behind = generation;
    fflush(NULL);
    runner = getpid();
    pid_t pid = fork();
    if (pid < 0) sentence("there is no child");
    if (pid == 0) be_child();
    int status = await_child(pid, &is_hung);
    check_left(generation, left);
    const char *cause = cause_of(status, is_hung);
    if (run->end == SENTENCE || run->end == LOST) end_check(run->end, "%s", run->told);
    if (run->end == GOES || run->end == DIED)
        died(cause);
    else if (status != 0)
        sentence("%s between two runs, after that of seed %llu", cause,
                 (unsigned long long)run->plan.seed);
    return run->end == DIED || run->outcome.kind != PCT_PASSED;
}

/* --- A search --- */

static void copy_run(Run *to, const Run *from) {
    memcpy(to, from, offsetof(Run, log) + from->steps * sizeof *from->log);
}

static bool has_kept_verdict(void) {
    return run->end == kept.end && memcmp(&run->outcome, &kept.outcome, sizeof run->outcome) == 0;
}

static uint64_t milliseconds(void) {
    struct timespec now;
    clock_gettime(CLOCK_MONOTONIC, &now);
    return (uint64_t)now.tv_sec * 1000 + (uint64_t)now.tv_nsec / 1000000;
}

/* Makes the run in declared order, with room for 64 threads, since those that nobody starts change
   nothing; whether it fails. */
static bool make_declared(void) {
    Plan plan = { .policy = BY_POINTS, .threads = MOST };
    for (uint32_t i = 0; i < MOST; i++) plan.order[i] = i;
    bool has_failed = make_child(plan);
    run->plan.threads = run->many[PCT_THREADS] = run->threads;
    return has_failed;
}

/* Makes the runs of the seeds, and keeps the shortest one that fails; how many do. It goes on after
   the first one for 20 of them or 2 seconds. A run that starts a further thread is thrown away: the
   next child begins its seed again, with one more, and all seeds are run so, since n is one for
   all. */
static uint32_t search_seeds(uint32_t threads) {
    uint32_t failed = 0;
    uint64_t end = UINT64_MAX;
    search.first = search.threads ? next_of_search() : 0;
    search.threads = threads;
    shared->left = search.all;
    kept.end = GOES;
    while (shared->left > 0 && (test.campaign || (failed < MOST_FAILING && milliseconds() < end))) {
        bool has_failed = make_child((Plan){ .policy = BY_SEED });
        if (run->end == MORE_THREADS) return search_seeds(run->threads);
        if (!has_failed) continue;
        if (failed++ == 0) end = milliseconds() + 2000;
        if (kept.end == GOES || run->steps < kept.steps) copy_run(&kept, run);
        pass_on();
    }
    return failed;
}
