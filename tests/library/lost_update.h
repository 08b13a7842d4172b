/* The three threads of examples/lost_update.pct, served by one caller. */
#ifndef LOST_UPDATE_H
#define LOST_UPDATE_H

#include "pct.h"

#define LOST_UPDATE_NAMES "thread A\nthread B\nthread Check\nvar counter\n"

static const PctDeal lost_update_deal = {3, 0, 0, 0};
static const int64_t lost_update_variables[1] = {0};

/* How many steps a thread has taken, and what it has read. */
typedef struct LostUpdateThread {
    uint32_t taken;
    int64_t read;
} LostUpdateThread;

/* What A and B ask, from the line of the first on. */
static PctAsk adder_ask(LostUpdateThread thread, uint32_t first, uint32_t *line) {
    PctAsk read = PCT_ASK(PCT_ASK_READ, 0, 0, 0, 0), write = PCT_ASK(PCT_ASK_WRITE, 0, 0, 0, 0);
    PctAsk none = PCT_ASK(PCT_ASK_NONE, 0, 0, 0, 0);
    *line = first + thread.taken;
    write.x = thread.read + 1;
    return thread.taken == 0 ? read : thread.taken == 1 ? write : none;
}

static PctAsk check_ask(LostUpdateThread thread, uint32_t *line) {
    PctAsk asks[5] = {PCT_ASK(PCT_ASK_JOIN, 0, 0, 0, 0), PCT_ASK(PCT_ASK_JOIN, 1, 0, 0, 0), PCT_ASK(PCT_ASK_READ, 0, 0, 0, 0),
                      PCT_ASK(PCT_ASK_CHECK_HOLDS, 0, 0, 0, 0), PCT_ASK(PCT_ASK_NONE, 0, 0, 0, 0)};
    asks[3].kind = thread.read == 2 ? PCT_ASK_CHECK_HOLDS : PCT_ASK_CHECK_FAILS;
    *line = 16 + thread.taken;
    return asks[thread.taken];
}

/* Serves the threads until the run is over. 0 where a call answers what it mustn't. */
static int serve_lost_update(PctBook *book) {
    LostUpdateThread threads[3] = {{0, 0}, {0, 0}, {0, 0}};
    PctTurn turn = pct_book_next(book);
    while (turn.status == PCT_DONE && turn.choice != PCT_CHOICE_OVER) {
        uint32_t thread = turn.thread, line = 0;
        if (turn.choice == PCT_CHOICE_WAITS) {
            PctAsk ask = thread == 2 ? check_ask(threads[2], &line) : adder_ask(threads[thread], thread ? 11 : 6, &line);
            turn = pct_book_post(book, thread, line, &ask);
        } else {
            turn = pct_book_take(book, thread);
            if (turn.answer) threads[thread].read = turn.answer;
            threads[thread].taken++;
        }
    }
    return turn.choice == PCT_CHOICE_OVER && (turn.status == PCT_ENDED || turn.status == PCT_DONE);
}

#endif
