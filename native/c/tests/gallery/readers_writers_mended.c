// examples/readers_writers_mended.pct in C, each step in its line. See there.
#include "pct_test.h"
static pct_sem_t room = PCT_SEM_INITIALIZER(1);
static pct_mutex_t counting = PCT_MUTEX_INITIALIZER;
static int readers = 0;
static int is_writing = 0;

static void Writer(void) {
    pct_sem_wait(&room);
    pct_store(&is_writing, 1);
    pct_step();
    pct_store(&is_writing, 0);
    pct_sem_post(&room);
}

static void Reader1(void) { int r0 = 0, r1 = 0;
    pct_mutex_lock(&counting);
    r0 = pct_add(&readers, 1);
    if (r0 == 0) {
        pct_sem_wait(&room);
    }
    pct_mutex_unlock(&counting);
    r1 = pct_load(&is_writing);
    PCT_CHECK(r1 == 0);
    pct_mutex_lock(&counting);
    r0 = pct_add(&readers, -1);
    if (r0 == 1) {
        pct_sem_post(&room);
    }
    pct_mutex_unlock(&counting);
}

static void Reader2(void) { int r0 = 0, r1 = 0;
    pct_mutex_lock(&counting);
    r0 = pct_add(&readers, 1);
    if (r0 == 0) {
        pct_sem_wait(&room);
    }
    pct_mutex_unlock(&counting);
    r1 = pct_load(&is_writing);
    PCT_CHECK(r1 == 0);
    pct_mutex_lock(&counting);
    r0 = pct_add(&readers, -1);
    if (r0 == 1) {
        pct_sem_post(&room);
    }
    pct_mutex_unlock(&counting);
}

static void reset(void) {
    readers = 0;
    is_writing = 0;
}

int main(int count, char **words) {
    static const char *const names[] = { "Writer", "Reader1", "Reader2" };
    static void (*const functions[])(void) = { Writer, Reader1, Reader2 };
    pct_options(count, words);
    pct_reset(reset);
    return pct_threads(3, names, functions);
}
