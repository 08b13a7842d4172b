/* Part of pct_test.c: what a child left in shared memory, over which its threads may have written,
   is looked at before it is used. What the library reads it looks at itself. */

static void __attribute__((noreturn)) refuse_left(const char *what) {
    sentence("what a run left in shared memory can't be (%s): one of its threads writes where it "
             "shouldn't, or died in the midst of a step; a sanitizer may say more",
             what);
}

static void must_be(bool holds, const char *what) {
    if (!holds) refuse_left(what);
}

static bool is_line(uint32_t line) { return line >= 1 && line <= MOST_LINE; }

static void check_places(void) {
    shared->texts[sizeof shared->texts - 1] = 0;
    must_be(shared->text_end <= sizeof shared->texts, "names of files");
    for (uint32_t i = 0; i <= MOST_LINE; i++)
        must_be(shared->places[i].file < sizeof shared->texts, "places");
    for (uint32_t i = 0; i < MOST_CALLERS; i++)
        must_be(shared->callers[i].file < sizeof shared->texts, "callers");
}

static void check_objects(void) {
    for (uint32_t kind = 0; kind < PCT_KINDS; kind++)
        must_be(run->many[kind] <= MOST && shared->deal[kind] <= MOST, "numbers of objects");
    for (uint32_t i = 0; i < PCT_KINDS * MOST; i++)
        run->names[i / MOST][i % MOST][PCT_MOST_NAME] = 0;
}

static void check_plan(void) {
    const Plan *plan = &run->plan;
    must_be(plan->policy <= BY_LIST && plan->threads <= MOST, "threads");
    must_be(plan->depth <= PCT_MOST_POINTS + 1 && plan->point_count <= PCT_MOST_POINTS, "points");
    for (uint32_t i = 0; i < plan->threads; i++) must_be(plan->order[i] < MOST, "order");
}

static void check_seats(void) {
    must_be(run->threads <= MOST && run->baton < MOST, "threads");
    for (uint32_t i = 0; i < MOST; i++) {
        const Seat *seat = &run->seats[i];
        bool is_set = i < run->threads; /* others are as the run made them, or zero */
        must_be(seat->late.state <= ENDED, "states of threads");
        must_be(!is_set || (is_line(seat->line) && is_line(seat->late.line)), "lines of threads");
    }
}

static void check_log(void) {
    must_be(run->steps <= test.limit && test.limit <= PCT_MOST_STEPS, "number of steps");
    for (uint32_t i = 0; i < run->steps; i++)
        must_be(run->log[i].thread < MOST && is_line(run->log[i].line), "steps");
}

/* A control character in what is told is none of the layer's. */
static void check_told(void) {
    run->told[sizeof run->told - 1] = shared->summary[sizeof shared->summary - 1] = 0;
    for (char *at = run->told; *at; at++)
        if ((unsigned char)*at < ' ' || *at == 127) *at = '?';
    for (char *at = shared->summary; *at; at++)
        if ((unsigned char)*at < ' ' || *at == 127) *at = '?';
}

/* A child of that generation, before which so many runs were to come. */
static void check_left(uint64_t generation, uint32_t left) {
    must_be(shared->before == generation && shared->behind == generation, "generation");
    must_be(run->end <= LOST && shared->left <= left, "end");
    check_told();
    check_places();
    check_objects();
    check_plan();
    check_seats();
    check_log();
}
