/* Part of pct_test.c: the book of turns, and the numbers of objects. */

static void open_book(void) {
    const Plan *plan = &run->plan;
    const PctDirective *directive = &plan->directive;
    const uint32_t *many = shared->deal, limit = (uint32_t)test.limit;
    const int64_t(*first)[MOST] = shared->deal_first;
    const PctDeal deal = { plan->threads, many[PCT_MUTEXES], many[PCT_CONDITIONS],
                           many[PCT_RWLOCKS] };
#define DEALT \
    &child.book, &deal, first[PCT_VARIABLES], many[PCT_VARIABLES], first[PCT_SEMAPHORES], \
        many[PCT_SEMAPHORES], first[PCT_BARRIERS], many[PCT_BARRIERS]
    if (plan->policy == BY_LIST)
        DEMAND(pct_book_by_list(DEALT, list, plan->listed, limit));
    else if (plan->policy == BY_DIRECTIVE)
        DEMAND(pct_book_by_moments(DEALT, plan->order, plan->threads, directive->moments,
                                   directive->count, limit));
    else
        DEMAND(pct_book_by_points(DEALT, plan->order, plan->threads, plan->points,
                                  plan->point_count, limit));
    child.turn = pct_book_next(&child.book);
}

/* Has the book's answer to a call. */
static void turn(PctTurn answered) {
    child.turn = answered;
    if (answered.status != PCT_ENDED) demand(answered.status, "the book");
}

/* Posts a thread's step that is the next one from a place of the log on, or else what stands. */
static void post_next(uint32_t thread, uint32_t from) {
    const Late *late = &run->seats[thread].late;
    while (from < run->steps && run->log[from].thread != thread) from++;
    if (from < run->steps)
        turn(pct_book_post(&child.book, thread, run->log[from].line, &run->log[from].ask));
    else if (late->state == POSTED || late->state == ENDED)
        turn(pct_book_post(&child.book, thread, late->line, &late->ask));
}

/* The same run so far in a new book: of a mended deal, whose new objects no step has touched, or
   with another ask that is posted and not taken. */
static void rebuild(void) {
    open_book();
    for (uint32_t thread = 0; thread < run->plan.threads; thread++) post_next(thread, 0);
    for (uint32_t i = 0; i < run->steps; i++) {
        turn(pct_book_take(&child.book, run->log[i].thread));
        post_next(run->log[i].thread, i + 1);
    }
}

/* --- Numbers of objects --- */

/* The number of an object that this run hasn't used, or where there is none of one that is gone and
   stands as the new one; NOBODY of a variable for which none is left. Where the deal hasn't got the
   object as it begins, the deal is mended. */
static uint32_t new_number(PctKind kind, int64_t first, const char *called, PctPlace place) {
    uint32_t number = run->many[kind], *deal = &shared->deal[kind];
    for (uint32_t i = 0; i < MOST && number == MOST; i++)
        if (run->gone[kind] & BIT(i) && run->now[kind][i] == first) {
            run->gone[kind] &= ~BIT(i);
            return i;
        }
    if (number == MOST && kind == PCT_VARIABLES) return NOBODY;
    if (number == MOST)
        sentence("%s: a run has at most 64 objects of a kind at a time (%s)%s",
                 place_text(place.file, place.line, false), KINDS[kind].word,
                 kind == PCT_SEMAPHORES ? ", and who waits in pct_yield or at a futex has one"
                                        : "");
    give_name(kind, number, called);
    run->many[kind]++;
    run->first[kind][number] = run->now[kind][number] = first;
    if (number < *deal && shared->deal_first[kind][number] == first) return number;
    shared->deal_first[kind][number] = first;
    if (number == *deal) ++*deal;
    rebuild();
    return number;
}

static bool is_of_run(const PctObject *object) {
    return child.runs && !child.is_forked && object->id >> 32 == shared->stamp;
}

static uint32_t number_of(PctKind kind, PctObject *object, PctPlace place) {
    me_at(place);
    if (is_of_run(object)) return (uint32_t)object->id;
    uint32_t number = new_number(kind, object->first, called_of(object, place.name), place);
    object->id = (uint64_t)shared->stamp << 32 | number;
    return number;
}

int pct_object_init(PctObject *object, int64_t first, int64_t least, int64_t most) {
    if (first < least || first > most) return EINVAL;
    *object = (PctObject)PCT_OBJECT(first);
    return 0;
}

int pct_object_destroy(PctKind kind, PctObject *object) {
    if (is_of_run(object)) run->gone[kind] |= BIT((uint32_t)object->id);
    object->id = 0;
    return 0;
}

static void forget_variable(uint32_t number) {
    run->variables[number].at = NULL;
    run->gone[PCT_VARIABLES] |= BIT(number);
}

/* The variables in these bytes are gone. */
static void forget(const volatile void *at, size_t bytes) {
    for (uint32_t i = 0; i < run->many[PCT_VARIABLES]; i++) {
        const void *known = run->variables[i].at;
        if (known && (uintptr_t)known - (uintptr_t)at < bytes) forget_variable(i);
    }
}

void pct_forget(const volatile void *at, size_t bytes) {
    if (child.runs && !child.is_forked) forget(at, bytes);
}
