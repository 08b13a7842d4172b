/* Part of pct_test.c: a replay. */

static char *replayed; /* the text of the trace */

/* Reads the sites of the trace that is to be replayed: the test that it is of, where no other is
   asked for, the names of its run, and the places. The names and places stand in what it gives. */
static char *read_sites(void) {
    const char *name = sites_name(test.replay);
    char *whole = read_file(name), *rest = whole, *line = whole;
    for (int head = 0; head < 4 && rest; head++) line = strsep(&rest, "\n");
    if (!rest || strncmp(line, "test ", 5) != 0)
        sentence("%s: its fourth line names no test", name);
    if (!test.only) test.only = strdup(line + 5);
    test.traced = rest;
    while (*rest >= 'a' && strchr(rest, '\n')) rest = strchr(rest, '\n') + 1;
    test.traced_bytes = (size_t)(rest - test.traced);
    while ((line = strsep(&rest, "\n")) && *line) {
        uint32_t number = 0;
        int at, file = 0;
        char how[5];
        sscanf(line, "%u %4s %d %n", &number, how, &at, &file);
        if (number < 1 || number > MOST_LINE || !file)
            sentence("%s: `%s` is neither a name nor a place", name, line);
        shared->places[number] = (Place){ kept_text(line + file), at, strcmp(how, "near") == 0 };
    }
    return whole;
}

/* By a trace, whose threads take turns as they are listed. */
static Plan read_trace(const char *whole) {
    Plan plan = { .policy = BY_LIST, .is_loud = true };
    PctTrace trace = PCT_TRACE_NONE;
    PctRead got =
        pct_text_read_trace(&trace, (const uint8_t *)test.traced, test.traced_bytes, BYTES(whole));
    if (got.status != PCT_DONE) sentence("%s: line %u has a fault", test.replay, got.line);
    PctHead head = pct_text_trace_head(&trace);
    plan.threads = (uint32_t)head.threads;
    plan.point_count = (uint32_t)head.points;
    plan.listed = (uint32_t)head.steps;
    DEMAND(pct_text_trace_order(&trace, plan.order, plan.threads, plan.points, plan.point_count));
    DEMAND(pct_text_trace_steps(&trace, 0, run->log, plan.listed));
    for (uint32_t i = 0; i < plan.listed; i++) list[i] = run->log[i].thread;
    test.limit = head.limit;
    pct_text_trace_free(&trace);
    return plan;
}

/* Prints how a replay ended, and the verdict of its trace; whether it failed. */
static bool tell_replay(void) {
    bool departs = run->outcome.kind == PCT_DEPARTED;
    if (departs || run->end == MORE_THREADS) {
        printf("the run departs from the trace at step %u: %s can't go there, or it goes on past "
               "the trace\n",
               run->steps + 1, departs ? who(run->outcome.thread) : "a further thread");
        return true;
    }
    printf("verdict ");
    print_verdict();
    tell_end();
    printf("the trace has the %s", strstr(replayed, "\nverdict ") + 1);
    return run->end == DIED || run->outcome.kind != PCT_PASSED;
}

/* Whether a debugger has this process. */
static bool is_traced(void) {
    char line[200];
    int tracer = 0;
    FILE *status = fopen("/proc/self/status", "r");
    while (status && fgets(line, sizeof line, status)) sscanf(line, "TracerPid: %d", &tracer);
    if (status) fclose(status);
    return tracer != 0;
}

/* What follows a run in this process. */
static void __attribute__((noreturn)) end_here(void) {
    child.ends = NULL;
    if (run->end == SENTENCE || run->end == LOST) end_check(run->end, "%s", run->told);
    if (run->end == DIED) died("");
    bool has_failed = tell_replay();
    if (fflush(stdout) != 0) lost("standard output");
    syscall(SYS_exit_group, has_failed);
    __builtin_unreachable();
}

/* Makes the run in this process, for a debugger to see, and ends the process. */
static void __attribute__((noreturn)) run_here(Plan plan) {
    run->plan = plan;
    run->end = GOES;
    be_ready_to_run();
    child.ends = end_here;
    make_run();
    leave(OUTCOME);
}

/* Makes the run of a trace file again, and prints its steps; whether it fails. */
static bool replay(void) {
    replayed = read_file(test.replay);
    Plan plan = read_trace(replayed);
    written = strdup(steps_in(replayed)); /* as lines, it is cut there */
    if (!written) sentence("no memory");
    if (is_traced()) run_here(plan);
    make_child(plan);
    return tell_replay();
}
