// examples/lock_order.pct in C, each step in its line. See there.
#include "pct_test.h"
static int savings = 10;
static int cheques = 10;
static pct_mutex_t of_savings = PCT_MUTEX_INITIALIZER;
static pct_mutex_t of_cheques = PCT_MUTEX_INITIALIZER;

static void Save(void) {
    pct_mutex_lock(&of_cheques);
    pct_mutex_lock(&of_savings);
    pct_add(&cheques, -3);
    pct_add(&savings, 3);
    pct_mutex_unlock(&of_savings);
    pct_mutex_unlock(&of_cheques);
}

static void Spend(void) {
    pct_mutex_lock(&of_savings);        // the other way round
    pct_mutex_lock(&of_cheques);
    pct_add(&savings, -5);
    pct_add(&cheques, 5);
    pct_mutex_unlock(&of_cheques);
    pct_mutex_unlock(&of_savings);
}

static void reset(void) {
    savings = 10;
    cheques = 10;
}

int main(int count, char **words) {
    static const char *const names[] = { "Save", "Spend" };
    static void (*const functions[])(void) = { Save, Spend };
    pct_options(count, words);
    pct_reset(reset);
    return pct_threads(2, names, functions);
}
