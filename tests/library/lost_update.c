/* Lost update over the seeds 1 to 1000, by the library. `campaign` writes the report. `threads` makes the trace of each
   seed one after another, and then in eight threads at once, each with a handle of its own, and hands one handle from
   thread to thread step by step. */
#include "lost_update.h"
#include "pct.h"
#include <pthread.h>
#include <stdio.h>
#include <string.h>

#define SEEDS 1000
#define RUNNERS 8
#define ROOM 512

static const uint8_t *names = (const uint8_t *)LOST_UPDATE_NAMES;
static const size_t name_bytes = sizeof LOST_UPDATE_NAMES - 1;

/* Makes a book by the order and the point that a seed draws for a depth of two. */
static uint32_t lost_update_of_seed(PctBook *book, uint64_t seed, uint32_t order[3], uint32_t points[1]) {
    uint32_t status = pct_draw(seed, 3, 8, 2, order, 3, points, 1);
    if (status != PCT_DONE) return status;
    return pct_book_by_points(book, &lost_update_deal, lost_update_variables, 1, NULL, 0, NULL, 0, order, 3, points, 1, 10000);
}

static int campaign(void) {
    static PctRow rows[SEEDS];
    static uint8_t text[65536];
    const PctFrame frame = {3, 8, 2, 10000};
    PctBook book = PCT_BOOK_NONE;
    PctCount report;
    for (uint32_t seed = 1; seed <= SEEDS; seed++) {
        uint32_t order[3], points[1];
        PctRow *row = &rows[seed - 1];
        if (lost_update_of_seed(&book, seed, order, points) != PCT_DONE || !serve_lost_update(&book)) return 1;
        row->seed = seed;
        row->steps = (uint32_t)pct_book_length(&book).count;
        if (pct_book_outcome(&book, &row->verdict) != PCT_DONE) return 1;
    }
    pct_book_free(&book);
    report = pct_text_report(names, name_bytes, &frame, rows, SEEDS, text, sizeof text);
    return report.status != PCT_DONE || fwrite(text, 1, (size_t)report.count, stdout) != report.count;
}

/* The text of the trace of a seed; 1 where a call answers what it mustn't. */
static int trace_of(uint64_t seed, char *text) {
    PctBook book = PCT_BOOK_NONE;
    PctEvent steps[8];
    PctOutcome outcome;
    PctCount length, told;
    uint32_t order[3], points[1];
    if (lost_update_of_seed(&book, seed, order, points) != PCT_DONE || !serve_lost_update(&book)) return 1;
    length = pct_book_length(&book);
    if (length.count > 8 || pct_book_steps(&book, 0, steps, (size_t)length.count) != PCT_DONE) return 1;
    if (pct_book_outcome(&book, &outcome) != PCT_DONE) return 1;
    told = pct_text_trace(names, name_bytes, 1, 10000, order, 3, points, 1, steps, (size_t)length.count, &outcome,
                          (uint8_t *)text, ROOM);
    pct_book_free(&book);
    return told.status != PCT_DONE;
}

static char alone[SEEDS][ROOM], at_once[RUNNERS][SEEDS][ROOM];

static void *runner(void *texts) {
    char(*own)[ROOM] = texts;
    for (uint32_t seed = 1; seed <= SEEDS; seed++)
        if (trace_of(seed, own[seed - 1])) return texts;
    return NULL;
}

/* One handle whose calls are made by another thread each. */
static void *one_move(void *of_book) {
    PctBook *book = of_book;
    PctAsk ask = PCT_ASK(PCT_ASK_YIELD, 0, 0, 0, 0);
    PctTurn turn = pct_book_step(book, 0, 1, &ask);
    return turn.status == PCT_DONE ? NULL : of_book;
}

static int handed_on(void) {
    const PctDeal deal = {1, 0, 0, 0};
    const uint32_t order[1] = {0};
    PctBook book = PCT_BOOK_NONE;
    int is_wrong = pct_book_by_points(&book, &deal, NULL, 0, NULL, 0, NULL, 0, order, 1, NULL, 0, 100) != PCT_DONE;
    for (int move = 0; move < 16; move++) {
        pthread_t mover;
        void *told = &book;
        if (pthread_create(&mover, NULL, one_move, &book) || pthread_join(mover, &told)) return 1;
        is_wrong |= told != NULL;
    }
    is_wrong |= pct_book_length(&book).count != 16;
    pct_book_free(&book);
    return is_wrong;
}

static int threads(void) {
    pthread_t runners[RUNNERS];
    int is_wrong = handed_on() || runner(alone) != NULL;
    for (int place = 0; place < RUNNERS; place++)
        if (pthread_create(&runners[place], NULL, runner, at_once[place])) return 1;
    for (int place = 0; place < RUNNERS; place++) {
        void *told = NULL;
        if (pthread_join(runners[place], &told)) return 1;
        is_wrong |= told != NULL || memcmp(at_once[place], alone, sizeof alone) != 0;
    }
    fputs(alone[12], stdout);
    return is_wrong;
}

int main(int count, char **words) {
    if (count == 2 && !strcmp(words[1], "campaign")) return campaign();
    if (count == 2 && !strcmp(words[1], "threads")) return threads();
    fputs("usage: lost_update campaign|threads\n", stderr);
    return 2;
}
