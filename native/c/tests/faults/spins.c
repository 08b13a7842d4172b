// A loop that looks again and again without pct_yield: in some orders it goes on up to the limit.
#include "pct_test.h"

static int is_set;

static void Looker(void) {
    while (!pct_load(&is_set))
        continue;
}

static void Setter(void) { pct_store(&is_set, 1); }

static void reset(void) { is_set = 0; }

int main(int count, char **words) {
    static const char *const names[] = { "Looker", "Setter" };
    static void (*const functions[])(void) = { Looker, Setter };
    pct_options(count, words);
    pct_reset(reset);
    return pct_threads(2, names, functions);
}
