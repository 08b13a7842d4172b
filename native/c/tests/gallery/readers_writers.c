// examples/readers_writers.pct in C, each step in its line. See there.
// The numbers of threads are the places of their names in main.
#include "pct_test.h"
static pct_sem_t room = PCT_SEM_INITIALIZER(1);
static int readers = 0;
static int is_writing = 0;

static void Writer(void) {
    pct_sem_wait(&room);
    pct_store(&is_writing, 1);
    pct_step();
    pct_store(&is_writing, 0);
    pct_sem_post(&room);
}

static void Reader1(void) { int r0 = 0, r1 = 0;
    r0 = pct_add(&readers, 1);
    if (r0 == 0) {
        pct_sem_wait(&room);            // the first one, for all
    }
    r1 = pct_load(&is_writing);
    PCT_CHECK(r1 == 0);
    r0 = pct_add(&readers, -1);
    if (r0 == 1) {
        pct_sem_post(&room);            // the last one
    }
}

static void Reader2(void) { int r0 = 0, r1 = 0;
    r0 = pct_add(&readers, 1);
    if (r0 == 0) {
        pct_sem_wait(&room);
    }
    r1 = pct_load(&is_writing);
    PCT_CHECK(r1 == 0);
    r0 = pct_add(&readers, -1);
    if (r0 == 1) {
        pct_sem_post(&room);
    }
}

static void reset(void) {
    readers = 0;
    is_writing = 0;
}

int main(int count, char **words) {
    static const char *const names[] = { "Writer", "Reader1", "Reader2" };
    static void (*const functions[])(void) = { Writer, Reader1, Reader2 };
    pct_options(count, words);
    pct_reset(reset);
    return pct_threads(3, names, functions);
}
