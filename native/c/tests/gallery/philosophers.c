// examples/philosophers.pct in C, each step in its line. See there.
// The numbers of threads are the places of their names in main.
#include "pct_test.h"
static pct_mutex_t fork1 = PCT_MUTEX_INITIALIZER;
static pct_mutex_t fork2 = PCT_MUTEX_INITIALIZER;
static pct_mutex_t fork3 = PCT_MUTEX_INITIALIZER;
static pct_mutex_t fork4 = PCT_MUTEX_INITIALIZER;
static pct_mutex_t fork5 = PCT_MUTEX_INITIALIZER;

static void P1(void) {
    pct_mutex_lock(&fork1);
    pct_mutex_lock(&fork2);
    pct_mutex_unlock(&fork2);
    pct_mutex_unlock(&fork1);
}

static void P2(void) {
    pct_mutex_lock(&fork2);
    pct_mutex_lock(&fork3);
    pct_mutex_unlock(&fork3);
    pct_mutex_unlock(&fork2);
}

static void P3(void) {
    pct_mutex_lock(&fork3);
    pct_mutex_lock(&fork4);
    pct_mutex_unlock(&fork4);
    pct_mutex_unlock(&fork3);
}

static void P4(void) {
    pct_mutex_lock(&fork4);
    pct_mutex_lock(&fork5);
    pct_mutex_unlock(&fork5);
    pct_mutex_unlock(&fork4);
}

static void P5(void) {
    pct_mutex_lock(&fork5);
    pct_mutex_lock(&fork1);
    pct_mutex_unlock(&fork1);
    pct_mutex_unlock(&fork5);
}

int main(int count, char **words) {
    static const char *const names[] = { "P1", "P2", "P3", "P4", "P5" };
    static void (*const functions[])(void) = { P1, P2, P3, P4, P5 };
    pct_options(count, words);
    return pct_threads(5, names, functions);
}
