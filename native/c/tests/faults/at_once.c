// A thread that waits for ever in its first step.
#include "pct_test.h"

static pct_sem_t never = PCT_SEM_INITIALIZER(0);

static void waits(void) { pct_sem_wait(&never); }

int main(int count, char **words) {
    pct_options(count, words);
    return pct_check(waits);
}
