/* Part of pct_test.c: directives: what is found and certified. */

/* Makes the run of an order and of a directive's moments; whether it has the kept run's verdict.
   A thread is known by who created it, as which. */
static bool make_directed(const uint32_t *order, const PctDirective *directive) {
    Plan plan = { .policy = BY_DIRECTIVE, .threads = kept.plan.threads, .directive = *directive };
    memcpy(plan.order, order, plan.threads * sizeof *order);
    make_child(plan);
    return has_kept_verdict();
}

/* The moments of the kept run without those that its verdict doesn't need. */
static PctDirective find(void) {
    const Plan *plan = &kept.plan;
    PctDirective found = { .low = plan->order[plan->threads - 1], .verdict = kept.outcome };
    PctCount made = pct_tell_moments(kept.log, kept.steps, plan->points, plan->point_count,
                                     found.moments, PCT_MOST_POINTS);
    demand(made.status, "pct_tell_moments");
    found.count = (uint32_t)made.count;
    for (uint32_t place = 0; place < found.count;) {
        PctDirective less = found;
        PctMoment *left_out = &less.moments[place];
        memmove(left_out, left_out + 1, (--less.count - place) * sizeof *left_out);
        bool is_same = make_directed(plan->order, &less);
        if (is_same) found = less;
        place = is_same ? 0 : place + 1;
    }
    return found;
}

static void print_bound(PctBound bound) {
    char digits[40], *to = digits + sizeof digits - 1;
    unsigned __int128 left = (unsigned __int128)bound.high << 64 | bound.low;
    for (*to = 0; left; left /= 10) *--to = (char)('0' + left % 10);
    printf("certified 1 in %s\n", to);
}

/* Makes the run of an order. Where it has the verdict, within so many steps, its line goes to a
   text; where not, what refutes the directive is printed. */
static bool is_certified(const PctDirective *found, const uint32_t *order, uint32_t most,
                         FILE *lines) {
    uint32_t points[PCT_MOST_POINTS];
    bool has_verdict = make_directed(order, found), is_long = run->steps > most;
    bool is_same = has_verdict && !is_long;
    FILE *to = is_same ? lines : stdout;
    fputs(is_same ? "order" : is_long ? "toolong order" : "refuted order", to);
    for (uint32_t i = 0; i < kept.plan.threads; i++)
        fprintf(to, " %s", kept.names[PCT_THREADS][order[i]]);
    if (is_long) {
        printf(" steps %u\n", run->steps);
    } else if (!is_same) {
        printf(" verdict ");
        print_verdict();
    }
    if (!is_same) return false;
    DEMAND(pct_tell_points(run->log, run->steps, most, found->moments, found->count, points,
                           found->count));
    fputs(" points", lines);
    for (uint32_t i = 0; i < found->count; i++) fprintf(lines, " %u", points[i]);
    fputc('\n', lines);
    return true;
}

/* Whether each order that places the directive's thread last leads to the verdict, within so many
   steps. */
static void certify(const PctDirective *found, uint32_t most) {
    uint32_t threads = kept.plan.threads, order[MOST] = { 0 };
    PctCount orders = pct_tell_order_count(threads);
    if (orders.status != PCT_DONE) {
        printf("certify takes at most 7 threads, and there are %u\n", threads);
        return;
    }
    char *whole = NULL;
    size_t length = 0;
    FILE *lines = open_memstream(&whole, &length);
    bool is_whole = lines != NULL;
    if (!lines) sentence("no memory");
    for (uint32_t place = 0; place < orders.count && is_whole; place++) {
        DEMAND(pct_tell_order(threads, found->low, place, order, threads));
        is_whole = is_certified(found, order, most, lines);
    }
    fclose(lines);
    if (is_whole) fputs(whole, stdout);
    if (is_whole) print_bound(pct_tell_bound(threads, most, found->count));
    free(whole);
}

/* What makes the kept failure again, and whether it does in each order. */
static void tell_directive(void) {
    PctDirective found = find();
    copy_run(run, &kept);
    const char *names = names_of_run();
    while (!is_written(pct_text_directive(BYTES(names), &found, ROOM))) continue;
    fputs(text, stdout);
    if (test.certifies) certify(&found, run->steps > search.steps ? run->steps : search.steps);
}
