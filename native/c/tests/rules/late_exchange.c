// An exchange whose post stands while another thread goes on: where Joiner is highest and waits for
// Exchanger's end, Exchanger posts before Writer's step, which makes what it posted stale.
#include "pct_test.h"

static int x, seen;
static unsigned word;
static int *at;

static void Exchanger(void) {
    seen = pct_exchange(&x, 7);
    pct_cas(&word, 0u, 3u);
    int *before = pct_exchange(&at, &seen);
    PCT_CHECK(!before || before == &x);
}

static void Writer(void) {
    pct_store(&x, 5);
    pct_store(&at, &x);
    pct_store(&word, 4000000000u);
}

static void Joiner(void) {
    pct_join(0, NULL);
    PCT_CHECK(seen == 0 || seen == 5);
    int now = pct_load(&x);
    PCT_CHECK(now == 7 || (now == 5 && seen == 0));
}

static void reset(void) {
    x = seen = 0;
    word = 0;
    at = NULL;
}

int main(int count, char **words) {
    static const char *const names[] = { "Exchanger", "Writer", "Joiner" };
    static void (*const functions[])(void) = { Exchanger, Writer, Joiner };
    pct_options(count, words);
    pct_reset(reset);
    return pct_threads(3, names, functions);
}
