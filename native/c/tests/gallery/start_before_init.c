// examples/start_before_init.pct in C, each step in its line. See there.
#include "pct_test.h"
static int config = 0;
static void *Worker(void *nothing);
static void Main(void) {
    pct_thread_t worker; pct_create(&worker, NULL, Worker, NULL);
    pct_store(&config, 7);              // the worker may have read it already
    pct_join(worker, NULL);
}

static void *Worker(void *nothing) { int r0 = 0;
    r0 = pct_load(&config);
    PCT_CHECK(r0 == 7);
    return nothing; }

static void reset(void) {
    config = 0;
}

int main(int count, char **words) {
    pct_options(count, words);
    pct_reset(reset);
    return pct_check(Main);
}
