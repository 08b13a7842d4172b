/* Random calls of the library: `random_calls SEED COUNT` draws so many, now and then with an argument out of range or a
   request for memory that is refused. A call that isn't done changes none of what it was given, nor the book. Each end
   `CALL STATUS NUMBER` is printed with how often it was met. To be run under valgrind. */
#include "lost_update.h"
#include "test.h"
#include <inttypes.h>

#define BOOKS 3

static uint64_t state;

/* A number below the bound (the multiplier is that of Knuth's MMIX). */
static uint32_t below(uint32_t bound) {
    state = state * UINT64_C(6364136223846793005) + UINT64_C(1442695040888963407);
    return (uint32_t)((state >> 33) * bound >> 31);
}

/* Whether now an argument is spoiled. */
static int spoils(void) { return below(16) == 0; }

/* A number that is mostly in range. */
static uint32_t drawn(uint32_t least, uint32_t most, uint32_t outside) {
    return spoils() ? outside : least + below(most - least + 1);
}

/* A whole run: that of lost update under the order A, B, Check, where A is lowered after the first step. */
static const uint32_t run_order[3] = {0, 1, 2}, run_points[1] = {1};
static const PctMoment run_moments[1] = {{0, 1}};
static PctEvent run_steps[8];
static PctOutcome run_outcome;
static uint8_t run_text[1024], run_directive[256];
static size_t run_text_bytes, run_directive_bytes;
#define RUN_NAMES (const uint8_t *)LOST_UPDATE_NAMES, (sizeof LOST_UPDATE_NAMES - 1 - (spoils() ? 5 : 0))
#define RUN_DEAL &deal, lost_update_variables, 1, NULL, 0, NULL, 0

/* Whatever the calls write and are lent. */
static struct {
    PctBook books[BOOKS];
    PctTrace trace;
    uint32_t order[64], points[8];
    PctEvent steps[64];
    PctOutcome outcome;
    PctMoment moments[8];
    PctRace races[4];
    PctNesting nestings[4];
    PctGroup groups[4];
    PctDirective directive;
    uint8_t text[1024];
} made, kept;

static PctDeal drawn_deal(void) {
    PctDeal deal = {drawn(1, 4, below(2) * 65), drawn(1, 2, 65), drawn(1, 2, 65), drawn(1, 2, 65)};
    return deal;
}

static void draw_order(uint32_t threads) {
    for (uint32_t place = 0; place < threads && place < 64; place++) {
        const uint32_t other = below(place + 1);
        made.order[place] = made.order[other];
        made.order[other] = place;
    }
    if (spoils()) made.order[below(4)] = below(5);
}

static uint32_t make_book(int by) {
    const PctDeal deal = drawn_deal();
    const int64_t variables[2] = {0, INT64_MAX}, semaphores[2] = {below(3), spoils() ? -1 : 2147483647};
    const int64_t barriers[2] = {2, spoils() ? 0 : 1};
    const uint32_t place = below(BOOKS), count = drawn(0, 7, 8), limit = drawn(1, 40, below(2) * 100001);
    PctMoment moments[8];
    uint32_t status;
    draw_order(deal.threads);
    for (uint32_t each = 0; each < 8; each++) {
        const PctMoment moment = {below(4), 1 + below(8)};
        made.points[each] = 1 + below(40);
        moments[each] = moment;
    }
    memcpy(&kept, &made, sizeof made);
#define DEAL &made.books[place], &deal, variables, 2, semaphores, 2, barriers, 2
    if (by == 0) status = pct_book_by_points(DEAL, made.order, deal.threads, made.points, count, limit);
    else if (by == 1) status = pct_book_by_moments(DEAL, made.order, deal.threads, moments, count, limit);
    else status = pct_book_by_list(DEAL, made.order, deal.threads < 64 ? deal.threads : 0, limit);
    return status;
}

static uint32_t by_points(void) { return make_book(0); }
static uint32_t by_moments(void) { return make_book(1); }
static uint32_t by_list(void) { return make_book(2); }

static uint32_t draw(void) {
    const uint32_t threads = drawn(1, 64, 0), depth = drawn(1, 8, 9), count = depth - 1 < 8 ? depth - 1 : 8;
    return pct_draw(state, threads, drawn(1, 100000, 0), depth, made.order, threads, made.points, count);
}

/* The book on which the next calls are made, and whose turn it was. */
static uint32_t chosen;
static PctTurn was;

static PctBook *drawn_book(void) {
    chosen = below(BOOKS);
    was = pct_book_next(&made.books[chosen]);
    return &made.books[chosen];
}

static PctAsk drawn_ask(void) {
    PctAsk ask = PCT_ASK(drawn(0, 30, 31 + below(9)), drawn(0, 1, 2 + below(70)), below(2), below(3), below(3));
    if (ask.kind == PCT_ASK_NONE && below(3)) ask.kind = PCT_ASK_YIELD;
    return ask;
}

/* A status that changes nothing leaves the choice, and no answer; a book that isn't there has no choice. */
static uint32_t turned(PctTurn turn) {
    const int changes = turn.status == PCT_DONE || turn.status == PCT_ENDED || turn.status == PCT_POSTED;
    if (!changes) IS(turn.answer == 0 && turn.choice == was.choice && turn.thread == was.thread);
    if (turn.status == PCT_ENDED) IS(turn.choice == PCT_CHOICE_OVER);
    IS((turn.status == PCT_NO_BOOK) == (turn.choice == PCT_CHOICE_NONE));
    return turn.status;
}

static uint32_t next(void) { return turned(pct_book_next(drawn_book())); }

/* The thread that is awaited, or whose turn it is, and now and then another. */
static uint32_t drawn_thread(uint32_t choice) {
    return was.choice == choice && !spoils() ? was.thread : drawn(0, 3, 64 + below(9));
}

/* A book whose choice is of the kind, where there is one. */
static PctBook *book_at(uint32_t choice) {
    PctBook *book = drawn_book();
    for (int tries = 0; tries < 4 && was.choice != choice && below(8); tries++) book = drawn_book();
    return book;
}

static uint32_t post(void) {
    PctBook *book = book_at(PCT_CHOICE_WAITS);
    const PctAsk ask = drawn_ask();
    return turned(pct_book_post(book, drawn_thread(PCT_CHOICE_WAITS), 1 + below(9), &ask));
}

static uint32_t step(void) {
    PctBook *book = book_at(PCT_CHOICE_WAITS);
    const PctAsk ask = drawn_ask();
    return turned(pct_book_step(book, drawn_thread(PCT_CHOICE_WAITS), 1 + below(9), &ask));
}

static uint32_t take(void) {
    PctBook *book = book_at(PCT_CHOICE_TURN);
    return turned(pct_book_take(book, drawn_thread(PCT_CHOICE_TURN)));
}

static uint32_t free_book(void) {
    if (below(4) == 0) pct_book_free(drawn_book());
    memcpy(&kept, &made, sizeof made);
    return PCT_DONE;
}

static uint32_t length(void) { return pct_book_length(drawn_book()).status; }

static uint32_t steps(void) {
    PctBook *book = drawn_book();
    const uint32_t count = (uint32_t)pct_book_length(book).count, from = below(count + 1);
    return pct_book_steps(book, from, made.steps, count - from + (spoils() ? 1 : 0));
}

static uint32_t outcome(void) { return pct_book_outcome(book_at(PCT_CHOICE_OVER), &made.outcome); }

static PctOutcome spoiled_outcome(void) {
    PctOutcome verdict = run_outcome;
    if (spoils()) verdict.kind = below(2) * 7 + below(2);
    return verdict;
}

static uint32_t text_trace(void) {
    const PctOutcome verdict = spoiled_outcome();
    return pct_text_trace(RUN_NAMES, drawn(1, 2, 3), drawn(8, 9, 0), run_order, 3, run_points, 1, run_steps, 8, &verdict, made.text,
                          drawn(run_text_bytes, sizeof made.text, below(9))).status;
}

static uint32_t text_verdict(void) {
    const PctOutcome verdict = spoiled_outcome();
    return pct_text_verdict(RUN_NAMES, &verdict, made.text, drawn(64, 1024, below(4))).status;
}

static uint32_t text_directive(void) {
    const PctDirective directive = {2, drawn(1, 1, 8), {{0, 1}}, spoiled_outcome()};
    return pct_text_directive(RUN_NAMES, &directive, made.text, drawn(256, 1024, below(9))).status;
}

/* A text in which now and then a byte is another one. */
static void spoil_text(const uint8_t *text, size_t bytes) {
    memcpy(made.text, text, bytes);
    if (below(4) == 0) made.text[below((uint32_t)bytes)] ^= 1;
    memcpy(&kept, &made, sizeof made);
}

static uint32_t read_directive(void) {
    spoil_text(run_directive, run_directive_bytes);
    return pct_text_read_directive(RUN_NAMES, made.text, run_directive_bytes - spoils(), &made.directive).status;
}

static uint32_t read_trace(void) {
    spoil_text(run_text, run_text_bytes);
    return pct_text_read_trace(&made.trace, RUN_NAMES, made.text, run_text_bytes - spoils()).status;
}

static uint32_t trace_free(void) {
    if (below(8) == 0) pct_text_trace_free(&made.trace);
    memcpy(&kept, &made, sizeof made);
    return PCT_DONE;
}

static uint32_t trace_head(void) { return pct_text_trace_head(&made.trace).status; }
static uint32_t trace_verdict(void) { return pct_text_trace_verdict(&made.trace, &made.outcome); }

static uint32_t trace_order(void) {
    return pct_text_trace_order(&made.trace, made.order, drawn(3, 3, 2), made.points, drawn(1, 1, 0));
}

static uint32_t trace_steps(void) {
    const PctHead head = pct_text_trace_head(&made.trace);
    const uint32_t from = below((uint32_t)head.steps + 1);
    return pct_text_trace_steps(&made.trace, from, made.steps, head.steps - from + spoils());
}

static uint32_t report(int is_json) {
    const PctFrame frame = {3, drawn(8, 8, 0), drawn(2, 2, 9), 100};
    const PctRow rows[2] = {{1, 8, spoiled_outcome()}, {2, 8, spoiled_outcome()}};
    const size_t room = drawn(512, 1024, below(9));
    return (is_json ? pct_text_report_json(RUN_NAMES, &frame, rows, 2, made.text, room)
                    : pct_text_report(RUN_NAMES, &frame, rows, 2, made.text, room)).status;
}

static uint32_t report_text(void) { return report(0); }
static uint32_t report_json(void) { return report(1); }
static uint32_t version(void) { return pct_tell_version() == PCT_VERSION ? PCT_DONE : PCT_BAD; }

static uint32_t is_proved(void) { return pct_tell_is_proved() <= 1 ? PCT_DONE : PCT_BAD; }

static uint32_t moments(void) {
    const uint32_t points[2] = {1, drawn(2, 9, 0)};
    return pct_tell_moments(run_steps, 8, points, 2, made.moments, drawn(2, 8, 0)).status;
}

static uint32_t points(void) {
    return pct_tell_points(run_steps, 8, drawn(8, 100000, 0), run_moments, 1, made.points, drawn(1, 1, 0));
}

static uint32_t order_count(void) { return pct_tell_order_count(drawn(1, 7, below(2) * 8)).status; }

static uint32_t order(void) {
    const uint32_t threads = drawn(3, 4, 8), orders = threads == 3 ? 2 : 6;
    return pct_tell_order(threads, drawn(0, 2, 9), drawn(0, orders - 1, 6), made.order, threads);
}

static uint32_t bound(void) { return pct_tell_bound(drawn(1, 7, 0), drawn(1, 100000, 0), drawn(0, 7, 8)).status; }

/* The steps of the run, now and then with a number that says nothing. */
static const PctEvent *spoiled_steps(void) {
    memcpy(made.steps, run_steps, sizeof run_steps);
    if (spoils()) made.steps[below(8)].ask.kind = below(2) * 31;
    if (spoils()) made.steps[below(8)].thread = 3;
    memcpy(&kept, &made, sizeof made);
    return made.steps;
}

static uint32_t races(void) {
    const PctDeal deal = {3, 0, 0, 0};
    return pct_tell_races(RUN_DEAL, spoiled_steps(), 8, made.races, drawn(1, 4, 0)).status;
}

static uint32_t lock_order(void) {
    const PctDeal deal = {3, drawn(1, 3, 65), 0, 0};
    return pct_tell_lock_order(RUN_DEAL, spoiled_steps(), 8, made.order, drawn(3, 64, 0), made.nestings, 4).status;
}

static uint32_t groups(void) {
    const PctRow rows[2] = {{1, 8, spoiled_outcome()}, {2, 8, run_outcome}};
    return pct_tell_groups(rows, 2, made.groups, drawn(2, 4, 0)).status;
}

static const struct {
    const char *name;
    uint32_t (*make)(void);
} calls[] = {
    {"pct_draw", draw}, {"pct_book_by_points", by_points}, {"pct_book_by_moments", by_moments}, {"pct_book_by_list", by_list},
    {"pct_book_free", free_book}, {"pct_book_next", next}, {"pct_book_post", post}, {"pct_book_take", take},
    {"pct_book_step", step}, {"pct_book_length", length}, {"pct_book_steps", steps}, {"pct_book_outcome", outcome},
    {"pct_text_trace", text_trace}, {"pct_text_verdict", text_verdict}, {"pct_text_directive", text_directive},
    {"pct_text_read_directive", read_directive}, {"pct_text_read_trace", read_trace}, {"pct_text_trace_free", trace_free},
    {"pct_text_trace_head", trace_head}, {"pct_text_trace_order", trace_order}, {"pct_text_trace_steps", trace_steps},
    {"pct_text_trace_verdict", trace_verdict}, {"pct_text_report", report_text}, {"pct_text_report_json", report_json},
    {"pct_tell_version", version}, {"pct_tell_is_proved", is_proved}, {"pct_tell_moments", moments}, {"pct_tell_points", points},
    {"pct_tell_order_count", order_count}, {"pct_tell_order", order}, {"pct_tell_bound", bound}, {"pct_tell_races", races},
    {"pct_tell_lock_order", lock_order}, {"pct_tell_groups", groups},
};

#define CALLS (sizeof calls / sizeof calls[0])

static long met[CALLS][9];

/* Makes one drawn call. What isn't done has written nothing, and where memory was refused nothing was kept. */
static void make_call(void) {
    /* posts and takes are made more often, so that runs come to their ends */
    const size_t place = below(3) == 0 ? 5 + below(4) : below(CALLS);
    const long live = live_blocks;
    uint32_t status;
    memcpy(&kept, &made, sizeof made);
    requests_before_refusal = below(8) == 0 ? (long)below(4) : -1;
    status = calls[place].make();
    requests_before_refusal = -1;
    if (status > PCT_NO_ROOM) {
        IS(status <= PCT_NO_ROOM);
        return;
    }
    met[place][status]++;
    if (status > PCT_POSTED) IS(!memcmp(&kept, &made, sizeof made));
    if (status == PCT_NO_MEMORY) IS(live_blocks == live);
}

/* Makes the run, its trace and its directive. */
static int make_run(void) {
    const PctDirective directive = {2, 1, {{0, 1}}, {PCT_FAILED, 0, 2, 19, 0, {0}}};
    PctBook book = PCT_BOOK_NONE;
    PctCount told;
    if (pct_book_by_points(&book, &lost_update_deal, lost_update_variables, 1, NULL, 0, NULL, 0, run_order, 3, run_points, 1, 9))
        return 0;
    if (!serve_lost_update(&book) || pct_book_steps(&book, 0, run_steps, 8) || pct_book_outcome(&book, &run_outcome)) return 0;
    pct_book_free(&book);
    told = pct_text_trace((const uint8_t *)LOST_UPDATE_NAMES, sizeof LOST_UPDATE_NAMES - 1, 1, 9, run_order, 3, run_points, 1,
                          run_steps, 8, &run_outcome, run_text, sizeof run_text);
    run_text_bytes = (size_t)told.count;
    if (told.status) return 0;
    told = pct_text_directive((const uint8_t *)LOST_UPDATE_NAMES, sizeof LOST_UPDATE_NAMES - 1, &directive, run_directive,
                              sizeof run_directive);
    run_directive_bytes = (size_t)told.count;
    return told.status == PCT_DONE;
}

int main(int count, char **words) {
    if (count != 3 || !make_run()) return 2;
    state = strtoull(words[1], NULL, 10);
    for (long left = atol(words[2]); left > 0; left--) make_call();
    for (size_t place = 0; place < BOOKS; place++) pct_book_free(&made.books[place]);
    pct_text_trace_free(&made.trace);
    IS(live_blocks == 0);
    for (size_t place = 0; place < CALLS; place++)
        for (size_t status = 0; status < 9; status++)
            if (met[place][status]) printf("%s %zu %ld\n", calls[place].name, status, met[place][status]);
    printf("%ld passed, %ld failed\n", checks_passed, checks_failed);
    return checks_failed > 0;
}
