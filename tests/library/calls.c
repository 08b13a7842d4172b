/* Each call of the library once, with answers typed from the cases of the program. Where a request for memory is refused,
   the call says so, has kept and changed nothing, and is made again: so the program ends as with all memory. It tells how
   many refusals it met, and how many checks passed and failed. */
#include "lost_update.h"
#include "test.h"

/* Whatever the calls write. */
static struct {
    PctBook book;
    PctTrace trace;
    uint32_t order[4], points[2];
    PctEvent steps[8];
    PctOutcome outcome;
    PctMoment moments[2];
    PctRace races[2];
    PctNesting nestings[2];
    PctGroup groups[2];
    PctDirective directive;
    uint8_t text[1024];
} made, kept;

static long live_before, refusals;

static void begin(void) {
    memcpy(&kept, &made, sizeof made);
    live_before = live_blocks;
}

/* Whether a call answered that there was no memory. */
static int was_refused(uint32_t status) {
    if (status != PCT_NO_MEMORY) return 0;
    refusals++;
    IS(live_blocks == live_before);
    IS(!memcmp(&kept, &made, sizeof made));
    return 1;
}

/* Makes the call into the answer, again where memory was refused. */
#define CALL(answer, status, call)      \
    do {                                \
        begin();                        \
        (answer) = (call);              \
    } while (was_refused(status))

static const uint8_t *bytes_of(const char *text) { return (const uint8_t *)text; }

static const char trace_text[] =
    "trace 1\norder A B Check\npoints 1\nlimit 10000\n1 A 6 read counter = 0\n2 B 11 read counter = 0\n"
    "3 B 12 write counter 1 = 0\n4 A 7 write counter 1 = 0\n5 Check 16 join A = 0\n6 Check 17 join B = 0\n"
    "7 Check 18 read counter = 1\n8 Check 19 check 0 = 0\nverdict failed Check 19\n";
static const char directive_text[] = "directive 1\nlow Check\nafter A 1\nverdict failed Check 19\n";
static const char report_text[] =
    "campaign 1\nthreads 1\nsteps 1\ndepth 2\nlimit 10000\n7 1 failed A 3\n8 1 failed A 3\ngroups 1\n2 1 7 failed A 3\n";
static const char report_json[] =
    "{\"depth\":2,\"groups\":[{\"count\":2,\"first\":7,\"steps\":1,\"verdict\":\"failed A 3\"}],\"limit\":10000,"
    "\"rows\":[[7,1,\"failed A 3\"],[8,1,\"failed A 3\"]],\"steps\":1,\"threads\":1}\n";

#define NAMES bytes_of(LOST_UPDATE_NAMES), sizeof LOST_UPDATE_NAMES - 1
#define LOST_UPDATE_DEAL &lost_update_deal, lost_update_variables, 1, NULL, 0, NULL, 0

/* Whether a text was written whole: its bytes are those, and no more. */
static int is_text(PctCount told, const char *wanted) {
    return told.status == PCT_DONE && told.count == strlen(wanted) && !memcmp(made.text, wanted, strlen(wanted));
}

static void check_draw(void) {
    uint32_t status;
    CALL(status, status, pct_draw(13, 3, 8, 2, made.order, 3, made.points, 1));
    IS(status == PCT_DONE && made.order[0] == 0 && made.order[1] == 1 && made.order[2] == 2 && made.points[0] == 1);
}

/* Serves a new book, and looks at what came of it. */
static void check_run(void) {
    uint32_t status;
    PctCount length;
    CALL(status, status, pct_book_outcome(&made.book, &made.outcome));
    IS(status == PCT_NOT_YET);
    IS(serve_lost_update(&made.book));
    CALL(length, length.status, pct_book_length(&made.book));
    IS(length.status == PCT_DONE && length.count == 8);
    CALL(status, status, pct_book_steps(&made.book, 0, made.steps, 8));
    IS(status == PCT_DONE && made.steps[2].thread == 1 && made.steps[2].line == 12 && made.steps[2].ask.kind == PCT_ASK_WRITE);
    IS(made.steps[2].ask.x == 1 && made.steps[6].answer == 1 && made.steps[7].ask.kind == PCT_ASK_CHECK_FAILS);
    CALL(status, status, pct_book_outcome(&made.book, &made.outcome));
    IS(status == PCT_DONE && made.outcome.kind == PCT_FAILED && made.outcome.thread == 2 && made.outcome.line == 19);
    IS(made.outcome.reason == 0 && made.outcome.blocked == 0 && made.outcome.lines[2] == 0);
}

static void check_books(void) {
    const uint32_t order[3] = {0, 1, 2}, points[1] = {1}, list[8] = {0, 1, 1, 0, 2, 2, 2, 2};
    const PctMoment moments[1] = {{0, 1}};
    uint32_t status;
    CALL(status, status, pct_book_by_moments(&made.book, LOST_UPDATE_DEAL, order, 3, moments, 1, 10000));
    IS(status == PCT_DONE && made.book.full);
    check_run();
    CALL(status, status, pct_book_by_list(&made.book, LOST_UPDATE_DEAL, list, 8, 10000));
    IS(status == PCT_DONE);
    check_run();
    CALL(status, status, pct_book_by_points(&made.book, LOST_UPDATE_DEAL, order, 3, points, 1, 10000));
    IS(status == PCT_DONE);
    check_run();
}

/* One turn after another, with the statuses that a single thread meets. */
static void check_turns(void) {
    const PctDeal deal = {2, 1, 0, 0};
    const uint32_t order[2] = {0, 1};
    const PctAsk lock = PCT_ASK(PCT_ASK_LOCK, 0, 0, 0, 0), none = PCT_ASK(PCT_ASK_NONE, 0, 0, 0, 0);
    PctBook book = PCT_BOOK_NONE;
    PctTurn turn;
    uint32_t status;
    turn = pct_book_next(&book);
    IS(turn.status == PCT_NO_BOOK && turn.choice == PCT_CHOICE_NONE);
    CALL(status, status, pct_book_by_points(&book, &deal, NULL, 0, NULL, 0, NULL, 0, order, 2, NULL, 0, 5));
    turn = pct_book_next(&book);
    IS(status == PCT_DONE && turn.status == PCT_DONE && turn.choice == PCT_CHOICE_WAITS && turn.thread == 0);
    turn = pct_book_step(&book, 1, 7, &lock);
    IS(turn.status == PCT_POSTED && turn.choice == PCT_CHOICE_WAITS && turn.thread == 0 && turn.answer == 0);
    turn = pct_book_take(&book, 1);
    IS(turn.status == PCT_NOT_YET && turn.choice == PCT_CHOICE_WAITS && turn.thread == 0);
    turn = pct_book_step(&book, 0, 3, &lock);
    IS(turn.status == PCT_DONE && turn.choice == PCT_CHOICE_WAITS && turn.thread == 0);
    turn = pct_book_post(&book, 0, 4, &lock);
    IS(turn.status == PCT_DONE && turn.choice == PCT_CHOICE_OVER);
    turn = pct_book_post(&book, 0, 4, &none);
    IS(turn.status == PCT_OVER);
    IS(pct_book_take(&book, 1).status == PCT_OVER);
    status = pct_book_outcome(&book, &made.outcome);
    IS(status == PCT_DONE && made.outcome.kind == PCT_STUCK && made.outcome.blocked == 3);
    IS(made.outcome.lines[0] == 4 && made.outcome.lines[1] == 7 && made.outcome.lines[2] == 0);
    pct_book_free(&book);
    IS(!book.full && pct_book_length(&book).status == PCT_NO_BOOK);
}

/* A step that ends the run: the one of one thread that fails. */
static void check_ended(void) {
    const PctDeal deal = {1, 0, 0, 0};
    const uint32_t order[1] = {0};
    const PctAsk fails = PCT_ASK(PCT_ASK_CHECK_FAILS, 0, 0, 0, 0);
    PctBook book = PCT_BOOK_NONE;
    PctTurn turn;
    uint32_t status;
    CALL(status, status, pct_book_by_points(&book, &deal, NULL, 0, NULL, 0, NULL, 0, order, 1, NULL, 0, 5));
    turn = pct_book_step(&book, 0, 3, &fails);
    IS(status == PCT_DONE && turn.status == PCT_ENDED && turn.choice == PCT_CHOICE_OVER && turn.answer == 0);
    pct_book_free(&book);
}

static void check_texts(void) {
    const uint32_t order[3] = {0, 1, 2}, points[1] = {1};
    PctCount told;
    CALL(told, told.status, pct_text_verdict(NAMES, &made.outcome, made.text, sizeof made.text));
    IS(is_text(told, "failed Check 19"));
    CALL(told, told.status, pct_text_trace(NAMES, 1, 10000, order, 3, points, 1, made.steps, 8, &made.outcome, made.text, 1024));
    IS(is_text(told, trace_text));
    CALL(told, told.status, pct_text_trace(NAMES, 1, 10000, order, 3, points, 1, made.steps, 8, &made.outcome, made.text,
                                           sizeof trace_text - 2));
    IS(told.status == PCT_NO_ROOM && told.count == sizeof trace_text - 1);
}

static void check_trace_read(void) {
    PctRead told;
    PctHead head;
    PctEvent written[8];
    memcpy(written, made.steps, sizeof written);
    CALL(told, told.status, pct_text_read_trace(&made.trace, NAMES, bytes_of(trace_text), sizeof trace_text - 1));
    IS(told.status == PCT_DONE && told.line == 0 && told.fault == 0 && made.trace.full);
    head = pct_text_trace_head(&made.trace);
    IS(head.status == PCT_DONE && head.version == 1 && head.limit == 10000 && head.threads == 3 && head.points == 1);
    IS(head.steps == 8);
    made.order[2] = made.points[0] = 9;
    IS(pct_text_trace_order(&made.trace, made.order, 3, made.points, 1) == PCT_DONE);
    IS(made.order[0] == 0 && made.order[1] == 1 && made.order[2] == 2 && made.points[0] == 1);
    memset(made.steps, 0, sizeof made.steps);
    IS(pct_text_trace_steps(&made.trace, 2, made.steps, 6) == PCT_DONE);
    IS(made.steps[0].thread == 1 && made.steps[0].line == 12 && made.steps[0].ask.x == 1 && made.steps[4].answer == 1);
    memcpy(made.steps, written, sizeof written);
    IS(pct_text_trace_verdict(&made.trace, &made.outcome) == PCT_DONE && made.outcome.kind == PCT_FAILED);
    CALL(told, told.status, pct_text_read_trace(&made.trace, NAMES, bytes_of("trace 1\norder A\n"), 16));
    IS(told.status == PCT_BAD && told.line == 2 && told.fault == PCT_TEXT_BAD_HEADER && made.trace.full);
}

static void check_directives(void) {
    const uint32_t points[1] = {1};
    PctDirective directive = {2, 1, {{0, 1}}, {PCT_FAILED, 0, 2, 19, 0, {0}}};
    PctCount told;
    PctRead read;
    PctBound bound;
    uint32_t status;
    CALL(told, told.status, pct_tell_moments(made.steps, 8, points, 1, made.moments, 2));
    IS(told.status == PCT_DONE && told.count == 1 && made.moments[0].thread == 0 && made.moments[0].number == 1);
    CALL(status, status, pct_tell_points(made.steps, 8, 8, made.moments, 1, made.points, 1));
    IS(status == PCT_DONE && made.points[0] == 1);
    CALL(told, told.status, pct_text_directive(NAMES, &directive, made.text, sizeof made.text));
    IS(is_text(told, directive_text));
    CALL(read, read.status, pct_text_read_directive(NAMES, bytes_of(directive_text), sizeof directive_text - 1, &made.directive));
    IS(read.status == PCT_DONE && made.directive.low == 2 && made.directive.count == 1 && made.directive.moments[0].number == 1);
    IS(made.directive.verdict.kind == PCT_FAILED && made.directive.verdict.line == 19);
    told = pct_tell_order_count(3);
    IS(told.status == PCT_DONE && told.count == 2);
    CALL(status, status, pct_tell_order(3, 1, 1, made.order, 3));
    IS(status == PCT_DONE && made.order[0] == 2 && made.order[1] == 0 && made.order[2] == 1);
    CALL(status, status, pct_tell_order(3, 1, 0, made.order, 3));
    IS(status == PCT_DONE && made.order[0] == 0 && made.order[1] == 2 && made.order[2] == 1);
    bound = pct_tell_bound(3, 8, 1);
    IS(bound.status == PCT_DONE && bound.low == 24 && bound.high == 0);
    bound = pct_tell_bound(7, 100000, 7); /* 7 * 10^35 */
    IS(bound.status == PCT_DONE && bound.high == 37947076036992655U && bound.low == 3509693170864619520U);
}

/* Thread A locks p and then q, B q and then p, one after another. */
static void check_lock_order(void) {
    const PctDeal deal = {2, 2, 0, 0};
    PctEvent steps[8];
    PctLocks told;
    for (uint32_t step = 0; step < 8; step++) {
        const uint32_t of_a[4] = {0, 1, 1, 0}, of_b[4] = {1, 0, 0, 1};
        const PctEvent made_now = {step / 4, 5 + step + (step > 3) * 2, PCT_ASK(PCT_ASK_LOCK, 0, 0, 0, 0), 0};
        steps[step] = made_now;
        steps[step].ask.kind = step % 4 < 2 ? PCT_ASK_LOCK : PCT_ASK_UNLOCK;
        steps[step].ask.a = step < 4 ? of_a[step] : of_b[step - 4];
    }
    CALL(told, told.status, pct_tell_lock_order(&deal, NULL, 0, NULL, 0, NULL, 0, steps, 8, made.order, 2, made.nestings, 2));
    IS(told.status == PCT_DONE && told.kind == PCT_LOCK_CYCLE && told.count == 2);
    IS(made.nestings[0].step == 2 && made.nestings[0].thread == 0 && made.nestings[0].held == 0 && made.nestings[0].taken == 1);
    IS(made.nestings[1].step == 6 && made.nestings[1].thread == 1 && made.nestings[1].held == 1 && made.nestings[1].taken == 0);
    CALL(told, told.status, pct_tell_lock_order(&deal, NULL, 0, NULL, 0, NULL, 0, steps, 4, made.order, 2, made.nestings, 2));
    IS(told.status == PCT_DONE && told.kind == PCT_LOCK_ORDER && told.count == 2 && made.order[0] == 0 && made.order[1] == 1);
}

static void check_reports(void) {
    static const char names[] = "thread A\n";
    const PctFrame frame = {1, 1, 2, 10000};
    const PctRow rows[2] = {{7, 1, {PCT_FAILED, 0, 0, 3, 0, {0}}}, {8, 1, {PCT_FAILED, 0, 0, 3, 0, {0}}}};
    PctCount told;
    CALL(told, told.status, pct_tell_groups(rows, 2, made.groups, 2));
    IS(told.status == PCT_DONE && told.count == 1 && made.groups[0].count == 2 && made.groups[0].steps == 1);
    IS(made.groups[0].first == 7 && made.groups[0].verdict.kind == PCT_FAILED && made.groups[0].verdict.line == 3);
    CALL(told, told.status, pct_text_report(bytes_of(names), 9, &frame, rows, 2, made.text, sizeof made.text));
    IS(is_text(told, report_text));
    CALL(told, told.status, pct_text_report_json(bytes_of(names), 9, &frame, rows, 2, made.text, sizeof made.text));
    IS(is_text(told, report_json));
}

static void check_races(void) {
    PctCount told;
    CALL(told, told.status, pct_tell_races(LOST_UPDATE_DEAL, made.steps, 8, made.races, 2));
    IS(told.status == PCT_DONE && told.count == 1);
    IS(made.races[0].variable == 0 && made.races[0].first == 1 && made.races[0].second == 3);
    CALL(told, told.status, pct_tell_races(LOST_UPDATE_DEAL, made.steps, 8, NULL, 0));
    IS(told.status == PCT_NO_ROOM && told.count == 1);
}

/* Of an empty list the pointer may be NULL. */
static void check_empty_lists(void) {
    const PctDeal deal = {1, 0, 0, 0};
    const uint32_t order[1] = {0};
    const PctOutcome passed = {PCT_PASSED, 0, 0, 0, 0, {0}};
    PctBook book = PCT_BOOK_NONE;
    PctCount told;
    PctLocks locks;
    PctRead read;
    uint32_t status;
    CALL(status, status, pct_draw(1, 1, 1, 1, made.order, 1, NULL, 0));
    IS(status == PCT_DONE && made.order[0] == 0);
    CALL(status, status, pct_book_by_moments(&book, &deal, NULL, 0, NULL, 0, NULL, 0, order, 1, NULL, 0, 1));
    IS(status == PCT_DONE && pct_book_steps(&book, 0, NULL, 0) == PCT_DONE);
    CALL(status, status, pct_book_by_list(&book, &deal, NULL, 0, NULL, 0, NULL, 0, NULL, 0, 1));
    IS(status == PCT_DONE);
    pct_book_free(&book);
    CALL(told, told.status, pct_text_verdict(NULL, 0, &passed, NULL, 0));
    IS(told.status == PCT_NO_ROOM && told.count == 6);
    CALL(told, told.status, pct_text_verdict(NULL, 0, &passed, made.text, 6));
    IS(is_text(told, "passed"));
    CALL(told, told.status, pct_text_trace(bytes_of("thread A\n"), 9, 1, 1, order, 1, NULL, 0, NULL, 0, &passed, made.text, 1024));
    IS(is_text(told, "trace 1\norder A\npoints\nlimit 1\nverdict passed\n"));
    CALL(read, read.status, pct_text_read_trace(&made.trace, NAMES, NULL, 0));
    IS(read.status == PCT_BAD && read.line == 1 && read.fault == PCT_TEXT_BAD_HEADER);
    CALL(told, told.status, pct_tell_moments(NULL, 0, NULL, 0, NULL, 0));
    IS(told.status == PCT_DONE && told.count == 0);
    CALL(status, status, pct_tell_points(NULL, 0, 1, NULL, 0, NULL, 0));
    IS(status == PCT_DONE);
    CALL(told, told.status, pct_tell_races(&deal, NULL, 0, NULL, 0, NULL, 0, NULL, 0, NULL, 0));
    IS(told.status == PCT_DONE && told.count == 0);
    CALL(locks, locks.status, pct_tell_lock_order(&deal, NULL, 0, NULL, 0, NULL, 0, NULL, 0, NULL, 0, NULL, 0));
    IS(locks.status == PCT_DONE && locks.kind == PCT_LOCK_ORDER && locks.count == 0);
    CALL(told, told.status, pct_tell_groups(NULL, 0, NULL, 0));
    IS(told.status == PCT_DONE && told.count == 0);
}

int main(void) {
    static char buffer[65536];
    setvbuf(stdout, buffer, _IOFBF, sizeof buffer);
    IS(pct_tell_version() == PCT_VERSION);
    IS(pct_tell_is_proved() <= 1);
    check_draw();
    check_books();
    check_texts();
    check_trace_read();
    check_directives();
    check_races();
    check_reports();
    check_lock_order();
    check_turns();
    check_ended();
    check_empty_lists();
    pct_book_free(&made.book);
    pct_text_trace_free(&made.trace);
    IS(live_blocks == 0);
    printf("%ld refused\n%ld passed, %ld failed\n", refusals, checks_passed, checks_failed);
    return checks_failed > 0;
}
