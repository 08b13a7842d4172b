/* Part of pct_test.c: texts: all are the library's. */

/* The last one that was written, up to the next one. */
static char *text;
static size_t room;
#define ROOM (uint8_t *)text, room
#define BYTES(names) (const uint8_t *)(names), strlen(names)

/* Whether the library has written its text; where not, it has the room now that it needs. */
static bool is_written(PctCount made) {
    if (made.status != PCT_NO_ROOM && made.count < room) {
        demand(made.status, "a text of the library");
        text[made.count] = 0;
        return true;
    }
    room = 2 * made.count + 4096;
    text = realloc(text, room);
    if (!text) sentence("no memory");
    return false;
}

/* Whether the library takes the name: keywords of scripts and registers are none. */
static bool is_lawful(const char *name) {
    char names[PCT_MOST_NAME + 16];
    const PctOutcome passed = { .kind = PCT_PASSED };
    sprintf(names, "thread %s\n", name);
    return pct_text_verdict(BYTES(names), &passed, NULL, 0).status != PCT_BAD;
}

static bool is_taken(const char *name) {
    for (uint32_t i = 0; i < PCT_KINDS * MOST; i++)
        if (strcmp(run->names[i / MOST][i % MOST], name) == 0) return true;
    return !is_lawful(name);
}

/* What a thread, an object or a test is called in the source, as letters, digits and _. */
static void make_stem(char *stem, size_t most, const char *called) {
    size_t length = 0;
    for (; called && *called && length + 1 < most; called++) {
        bool is_letter = (*called | 32) >= 'a' && (*called | 32) <= 'z';
        if (is_letter || (length && *called >= '0' && *called <= '9'))
            stem[length++] = *called;
        else if (length && stem[length - 1] != '_')
            stem[length++] = '_';
    }
    while (length && stem[length - 1] == '_') length--;
    stem[length] = 0;
}

/* A lawful name that no other has, after what a thread or an object is called. */
static void give_name(PctKind kind, uint32_t number, const char *called) {
    char stem[PCT_MOST_NAME - 5], tried[PCT_MOST_NAME + 1];
    run->names[kind][number][0] = 0; /* one that a text gave it before the run met it */
    make_stem(stem, sizeof stem, called);
    if (!*stem) strcpy(stem, KINDS[kind].word);
    strcpy(tried, stem);
    for (unsigned suffix = is_lawful(stem) ? 2 : 1; is_taken(tried); suffix++)
        snprintf(tried, sizeof tried, "%s_%u", stem, suffix);
    strcpy(run->names[kind][number], tried);
}

static const char *called_of(const volatile void *at, const char *called) {
    for (uint32_t i = named_count; i-- > 0;)
        if (named[i].at == at) return named[i].name;
    return called;
}

/* The lines of names of the run's threads and objects; they stand until the next call. */
static const char *names_of_run(void) {
    static char names[PCT_KINDS * MOST * (PCT_MOST_NAME + 10)];
    char *to = names;
    *to = 0;
    for (uint32_t i = 0; i < PCT_KINDS * MOST; i++) {
        uint32_t kind = i / MOST, number = i % MOST;
        if (number >= run->many[kind]) continue;
        if (!run->names[kind][number][0]) give_name((PctKind)kind, number, NULL);
        to += sprintf(to, "%s %s\n", KINDS[kind].word, run->names[kind][number]);
    }
    return names;
}

/* The trace of these steps. */
static char *trace_text(const PctEvent *steps, uint32_t count) {
    const PctOutcome passed = { .kind = PCT_PASSED }, *outcome = &run->outcome;
    const Plan *plan = &run->plan;
    const char *names = names_of_run();
    uint32_t version = run->many[PCT_RWLOCKS] ? 2 : 1, limit = (uint32_t)test.limit;
    if (outcome->kind == 0 || outcome->kind == PCT_DEPARTED) outcome = &passed;
    while (
        !is_written(pct_text_trace(BYTES(names), version, limit, plan->order, plan->threads,
                                   plan->points, plan->point_count, steps, count, outcome, ROOM)))
        continue;
    return text;
}

static const char *verdict_text(void) {
    char *verdict = strstr(trace_text(NULL, 0), "\nverdict ") + strlen("\nverdict ");
    *strchr(verdict, '\n') = 0;
    return verdict;
}

/* Where the steps of a trace begin, behind the four lines of its head. */
static char *steps_in(char *trace) {
    for (int head = 0; head < 4; head++) trace = strchr(trace, '\n') + 1;
    return trace;
}

/* A step as its trace has it, behind its number. */
static char *step_text(const PctEvent *step) {
    char *line = steps_in(trace_text(step, 1));
    *strchr(line, '\n') = 0;
    return strchr(line, ' ') + 1;
}

static char *ask_text(const PctEvent *step) {
    char *line = strchr(step_text(step), ' ') + 1, *ask = strchr(line, ' ') + 1;
    *strstr(ask, " = ") = 0;
    return ask;
}
