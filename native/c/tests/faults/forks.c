// A run that forks: the other process may not make steps, and what it frees is its own.
#include "pct_test.h"
#include <stdlib.h>
#include <sys/wait.h>
#include <unistd.h>

static void forks(void) {
    int *cell = malloc(sizeof *cell);
    pct_store(cell, 1);
    pid_t other = fork();
    if (other == 0) {
        free(cell);
        if (STEPS) pct_step();
        _exit(7);
    }
    int status = 0;
    waitpid(other, &status, 0);
    PCT_CHECK(WEXITSTATUS(status) == 7 && pct_load(cell) == 1);
    free(cell);
}

int main(int count, char **words) {
    pct_options(count, words);
    return pct_check(forks);
}
