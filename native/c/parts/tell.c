/* Part of pct_test.c: what is told of a run. */

/* The verdict, whose numbers are lines: of another file's or a near place it is that place. */
static void print_verdict_words(void) {
    static char verdict[64 * (PCT_MOST_NAME + 8)];
    char *rest = verdict, *word;
    snprintf(verdict, sizeof verdict, "%s", verdict_text());
    for (const char *before = ""; (word = strsep(&rest, " ")); before = " ") {
        char *end;
        unsigned long number = strtoul(word, &end, 10);
        bool is_line = end > word && !*end && number > 0 && number <= MOST_LINE;
        const Place *place = &shared->places[is_line ? number : 0];
        bool is_other = is_line && place->file && !is_own_line(place, (int)number);
        printf("%s%s", before, is_other ? line_text((uint32_t)number) : word);
    }
}

static void print_verdict(void) {
    uint64_t blocked = run->outcome.kind == PCT_STUCK ? run->outcome.blocked : 0;
    if (run->end == MORE_THREADS)
        printf("a further thread is started");
    else
        print_verdict_words();
    if (run->end == DIED) printf(": %s", run->told);
    if (blocked && !(blocked & ~run->waiting))
        printf(": a livelock, all wait in pct_yield for a change");
    putchar('\n');
}

/* Puts what threads have posted that ask at the end behind the run's steps; where those end. */
static uint32_t add_asking(void) {
    uint32_t end = run->steps;
    for (uint32_t thread = 0; thread < run->threads && run->end == OUTCOME; thread++) {
        const Late *late = &run->seats[thread].late;
        if (late->state == POSTED && late->ask.kind != PCT_ASK_BEGIN)
            run->log[end++] = (PctEvent){ thread, late->line, late->ask, 0 };
    }
    return end;
}

/* A line of the lanes: v1 is the first change point, and ! stands before what is waited for. */
static void print_lane(uint32_t i, int width) {
    const PctEvent *step = &run->log[i];
    bool is_step = i < run->steps;
    char cell[200];
    int used = snprintf(cell, sizeof cell - 8, "%s%s", is_step ? "" : "! ", ask_text(step));
    for (uint32_t point = 0; point < run->plan.point_count; point++)
        if (run->plan.points[point] == i + 1) sprintf(cell + used, " v%u", point + 1);
    printf("%6.0u  %*s%-*s  %s\n", is_step ? i + 1 : 0, width * (int)step->thread, "",
           width * (int)(run->threads - step->thread) - 2, cell, line_text(step->line));
}

/* A lane for each thread, from left to right. */
static void print_lanes(void) {
    uint32_t end = add_asking();
    int width = 0;
    for (uint32_t i = 0; i < end; i++) {
        int length = (int)strlen(ask_text(&run->log[i])) + 6;
        width = length > width ? length : width;
    }
    printf("%6s", "step");
    for (uint32_t i = 0; i < run->threads; i++) printf("  %-*s", width - 2, who(i));
    printf("  place\n");
    for (uint32_t i = 0; i < end; i++) print_lane(i, width);
    printf("verdict ");
    print_verdict_words();
    putchar('\n');
}

/* Where a run is stuck who waits for what, and where it is cut where its last steps stand. */
static void tell_end(void) {
    bool is_stuck = run->outcome.kind == PCT_STUCK;
    uint32_t end = is_stuck ? add_asking() : 0;
    for (const PctEvent *ask = &run->log[run->steps]; ask < &run->log[end]; ask++)
        printf("  %s waits at %s: %s\n", who(ask->thread), line_text(ask->line), ask_text(ask));
    if (is_stuck) printf("  no wait ends by itself, that of a timed form neither\n");
    if (run->outcome.kind == PCT_CUT)
        printf("  its last step stands at %s: a loop that looks again and again wants pct_yield\n",
               line_text(run->log[run->steps - 1].line));
}

/* The report that `pct campaign` writes. */
static void print_report(void) {
    uint32_t depth = (uint32_t)test.depth, limit = (uint32_t)test.limit;
    const PctFrame frame = { search.threads, search.steps, depth, limit };
    const char *names = names_of_run();
    while (!is_written(pct_text_report(BYTES(names), &frame, shared->rows, search.all, ROOM)))
        continue;
    fputs(text, stdout);
}
