/* Part of pct_test.c: a check, and what main calls. */

/* Makes the kept run again in a fresh child, whose output is seen. */
static void confirm(void) {
    Plan plan = kept.plan;
    plan.policy = BY_POINTS;
    plan.is_loud = true;
    if (!make_child(plan)) {
        bool was_first = test.isolate || !kept.plan.depth;
        printf(was_first ? "made again it passes: the code isn't deterministic\n"
                         : "it passes in a fresh process: what globals carry over from run to run "
                           "is the likely cause; give pct_reset, or --isolate\n");
        return;
    }
    uint32_t same = 0, least = run->steps < kept.steps ? run->steps : kept.steps;
    while (same < least && is_same_step(&run->log[same], &kept.log[same])) same++;
    if (same < least || run->steps != kept.steps || !has_kept_verdict())
        printf("in a fresh process it is another run from step %u on: the code isn't "
               "deterministic, or globals carry over\n",
               same + 1);
}

/* Tells the kept run, the shortest one of so many that fail. */
static void tell(uint32_t failed) {
    char name[sizeof test.title + 6];
    const char *trace = test.trace ? test.trace : name;
    snprintf(name, sizeof name, "%s.trace", test.title);
    uint32_t made = search.all - shared->left;
    if (failed)
        printf("%s: failed in %u of the %u seeds that were run; ", test.title, failed, made);
    else
        printf("%s: the run in declared order failed, and none of the %u seeds that were run; ",
               test.title, made);
    printf("n %u, k %u; the shortest run:\n", search.threads, search.steps);
    fflush(stdout);
    confirm();
    copy_run(run, &kept);
    if (run->plan.depth)
        printf("seed %llu, depth %u, ", (unsigned long long)run->plan.seed, run->plan.depth);
    else
        printf("the run in declared order, ");
    printf("%u steps: ", run->steps);
    print_verdict();
    tell_end();
    if (test.lanes) print_lanes();
    write_trace(trace);
    if (test.json) write_document(trace);
    printf("the trace is in %s; again: %s --replay %s\n", trace, test.program, trace);
}

/* Makes the test's runs, and tells of them; whether it fails. */
static bool check(void) {
    bool are_seeds_meant = test.finds || test.certifies || test.campaign;
    if (test.replay) return replay();
    if (test.campaign && !test.depth) sentence("--campaign needs --depth");
    bool has_declared_failed = make_declared();
    if (has_declared_failed) copy_run(&declared, run);
    uint32_t steps = run->steps, threads = (uint32_t)test.threads;
    search.steps = test.steps ? (uint32_t)test.steps : steps ? steps : 1;
    search.all = (uint32_t)(test.depth ? test.seeds : 3 * test.seeds);
    search.threads = 0;
    search.least_depth = test.depth ? (uint32_t)test.depth : 1;
    uint32_t failed = search_seeds(threads > run->threads ? threads : run->threads);
    bool is_shortest = has_declared_failed && (kept.end == GOES || steps < kept.steps);
    if (is_shortest && !are_seeds_meant) copy_run(&kept, &declared);
    if (test.campaign)
        print_report();
    else if (kept.end == GOES && has_declared_failed)
        printf("%s: no seed failed, but the run in declared order fails\n", test.title);
    else if (kept.end == GOES)
        printf("%s: passed in %u seeds; n %u, k %u\n", test.title, search.all, search.threads,
               search.steps);
    else if (are_seeds_meant)
        tell_directive();
    else
        tell(failed);
    return kept.end != GOES || (has_declared_failed && !test.campaign);
}

void pct_reset(void (*reset)(void)) { test.reset = reset; }

void pct_name(const volatile void *at, const char *name) {
    if (named_count == LENGTH(named)) sentence("pct_name is for at most %d objects", 4 * MOST);
    named[named_count].at = at;
    named[named_count++].name = name;
}

/* Where standard input, output or error is closed, no other file may get its number. */
static void keep_standard_files(void) {
    while (fcntl(0, F_GETFD) < 0 || fcntl(1, F_GETFD) < 0 || fcntl(2, F_GETFD) < 0)
        if (open("/dev/null", O_RDONLY) < 0) _exit(7);
}

/* Checks the test that is asked for; whether it fails. */
static bool check_meant(void) {
    Output output = { .to = NULL };
    if (test.traces) output = open_output(test.traces);
    traces = output.to;
    bool has_failed = check();
    if (traces) close_output(&output);
    traces = NULL;
    if (fflush(stdout) != 0 || ferror(stdout)) lost("standard output");
    return has_failed;
}

/* Makes room that is shared with children, and checks the test with it; whether it fails. */
static bool check_shared(void) {
    int protection = PROT_READ | PROT_WRITE, flags = MAP_SHARED | MAP_ANONYMOUS | MAP_NORESERVE;
    keep_standard_files();
    shared = mmap(NULL, sizeof *shared, protection, flags, -1, 0);
    if (shared == MAP_FAILED) sentence("no memory");
    run = &shared->run;
    shared->text_end = 1;
    char *sites = test.replay ? read_sites() : NULL;
    bool is_meant = !test.only || strcmp(test.only, test.name) == 0;
    test.is_there |= is_meant;
    bool has_failed = is_meant && check_meant();
    munmap(shared, sizeof *shared);
    shared = NULL;
    free(sites);
    return has_failed;
}

/* A test is called as it was given, with a number behind where others before it are called so. */
int pct_threads_at(unsigned count, const char *const *names, void (*const *functions)(void),
                   PctPlace place) {
    static char stems[MOST_TESTS][sizeof test.name - 8];
    static uint32_t tests;
    uint32_t same = 1;
    if (own_seat || child.runs)
        sentence("%s: a run can't check another test", place_text(place.file, place.line, false));
    if (tests == MOST_TESTS) sentence("a program has at most %d tests", MOST_TESTS);
    if (count < 1 || count > MOST) sentence("a test has 1 to 64 threads");
    if (pct_tell_version() != PCT_VERSION)
        sentence("the library that was linked has another version than pct.h");
    test.names = names;
    test.functions = functions;
    test.declared = count;
    test.place = place;
    make_stem(stems[tests], sizeof stems[tests], place.name);
    for (uint32_t i = 0; i < tests; i++) same += strcmp(stems[i], stems[tests]) == 0;
    snprintf(test.name, sizeof test.name, same > 1 ? "%s_%u" : "%s", stems[tests++], same);
    snprintf(test.title, sizeof test.title, "%s.%s", base_of(test.program), test.name);
    return check_shared();
}

int pct_check_at(void (*body)(void), PctPlace place) {
    static const char *const names[] = { "Main" };
    return pct_threads_at(1, names, &body, place);
}
