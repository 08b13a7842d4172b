// A thread that writes over the memory which the layer shares with its children: by SCRIBBLE, a number, over all of it
// or over a part, and it goes on or dies then.
#include "pct_test.h"
#include <stdio.h>
#include <stdlib.h>
#include <string.h>

static int x;

// Where the layer's memory begins and ends, as the system lists it.
static int find_shared(uintptr_t *begin, uintptr_t *end) {
    char line[512];
    FILE *maps = fopen("/proc/self/maps", "r");
    int is_found = 0;
    while (maps && !is_found && fgets(line, sizeof line, maps))
        is_found = strstr(line, "/dev/zero") && sscanf(line, "%lx-%lx", begin, end) == 2;
    if (maps) fclose(maps);
    return is_found;
}

static void scribbles(void) {
    uintptr_t begin, end;
    pct_store(&x, 1);
    if (!find_shared(&begin, &end)) return;
    unsigned char *at = (unsigned char *)begin;
    int kind = atoi(getenv("SCRIBBLE"));
    srand((unsigned)kind);
    size_t bytes = end - begin, from = kind % 3 ? (size_t)rand() % bytes : 0;
    size_t most = kind % 3 == 1 ? from + 4096 : bytes;
    for (size_t i = from; i < bytes && i < most; i++)
        at[i] = (unsigned char)rand();
    if (kind % 2) abort();
    pct_load(&x);
}

static void reset(void) { x = 0; }

int main(int count, char **words) {
    pct_options(count, words);
    pct_reset(reset);
    return pct_check(scribbles);
}
