// What a thread does depends on its process.
#include "pct_test.h"
#include <unistd.h>

static int x;

static void Drawn(void) {
    pct_store(&x, 0);
    pct_store(&x, (int)getpid());
    PCT_CHECK(false);
}

static void reset(void) { x = 0; }

int main(int count, char **words) {
    static const char *const names[] = { "Drawn" };
    static void (*const functions[])(void) = { Drawn };
    pct_options(count, words);
    pct_reset(reset);
    return pct_threads(1, names, functions);
}
