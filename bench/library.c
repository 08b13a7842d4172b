/* Work for bench/library: books that are made, served and freed, or long runs whose threads are served by the caller, in the
   order in which they are declared. Prints how many books or steps were made, and in how many seconds.
       library books COUNT | library adders STEPS TIMES | library mutex STEPS TIMES */
#define _POSIX_C_SOURCE 199309L
#include "lost_update.h"
#include "pct.h"
#include <stdio.h>
#include <stdlib.h>
#include <string.h>
#include <time.h>

#define MOST 16

static double now(void) {
    struct timespec time;
    clock_gettime(CLOCK_MONOTONIC, &time);
    return (double)time.tv_sec + (double)time.tv_nsec / 1e9;
}

/* Lost update, three threads and eight steps, at a limit of 10,000. */
static long make_books(long count) {
    const uint32_t order[3] = {0, 1, 2}, points[1] = {1};
    PctBook book = PCT_BOOK_NONE;
    for (long made = 0; made < count; made++) {
        if (pct_book_by_points(&book, &lost_update_deal, lost_update_variables, 1, NULL, 0, NULL, 0, order, 3, points, 1, 10000))
            return -1;
        if (!serve_lost_update(&book) || pct_book_length(&book).count != 8) return -1;
        pct_book_free(&book);
    }
    return count;
}

/* The asks of one round of each thread, and the lines that they stand in. */
typedef struct Round {
    uint32_t asks, kinds[5];
} Round;

static const Round adds = {1, {PCT_ASK_ADD}};
static const Round counts_under_a_mutex = {5, {PCT_ASK_LOCK, PCT_ASK_READ, PCT_ASK_WRITE, PCT_ASK_UNLOCK, PCT_ASK_YIELD}};

typedef struct Thread {
    uint32_t taken;
    int64_t read;
} Thread;

static PctAsk next_ask(const Round *round, const Thread *thread, uint32_t most) {
    PctAsk ask = PCT_ASK(PCT_ASK_NONE, 0, 0, 1, 0);
    if (thread->taken == most) return ask;
    ask.kind = round->kinds[thread->taken % round->asks];
    if (ask.kind == PCT_ASK_WRITE) ask.x = thread->read + 1;
    return ask;
}

/* The steps of one run of so many threads, each with so many steps. */
static long serve(const Round *round, uint32_t count, uint32_t most) {
    const PctDeal deal = {count, 1, 0, 0};
    const int64_t variables[1] = {0};
    Thread threads[MOST];
    PctBook book = PCT_BOOK_NONE;
    PctTurn turn;
    uint32_t order[MOST];
    long steps;
    memset(threads, 0, sizeof threads);
    for (uint32_t thread = 0; thread < count; thread++) order[thread] = thread;
    if (pct_book_by_points(&book, &deal, variables, 1, NULL, 0, NULL, 0, order, count, NULL, 0, 100000)) return -1;
    turn = pct_book_next(&book);
    while (turn.choice != PCT_CHOICE_OVER) {
        Thread *thread = &threads[turn.thread];
        const uint32_t kind = round->kinds[thread->taken % round->asks];
        if (turn.choice == PCT_CHOICE_WAITS) {
            const PctAsk ask = next_ask(round, thread, most);
            turn = pct_book_step(&book, turn.thread, 1, &ask);
            if (turn.status == PCT_POSTED) continue;
        } else {
            turn = pct_book_take(&book, turn.thread);
        }
        if (turn.status > PCT_ENDED) return -1;
        if (kind == PCT_ASK_READ) thread->read = turn.answer;
        thread->taken++;
    }
    steps = (long)pct_book_length(&book).count;
    pct_book_free(&book);
    return steps;
}

static long serve_often(const Round *round, uint32_t count, uint32_t steps, long times) {
    long made = 0;
    for (long time = 0; time < times; time++) {
        const long more = serve(round, count, steps / count);
        if (more != (long)(steps / count * count)) return -1;
        made += more;
    }
    return made;
}

int main(int count, char **words) {
    const double begun = now();
    long made = -1;
    if (count == 3 && !strcmp(words[1], "books")) made = make_books(atol(words[2]));
    if (count == 4 && !strcmp(words[1], "adders")) made = serve_often(&adds, 2, (uint32_t)atol(words[2]), atol(words[3]));
    if (count == 4 && !strcmp(words[1], "mutex"))
        made = serve_often(&counts_under_a_mutex, 16, (uint32_t)atol(words[2]), atol(words[3]));
    printf("%ld %.6f\n", made, now() - begun);
    return made < 0;
}
