/* For tests of the library in C: checks that are counted, and the library's own requests for memory, of which
   each is counted and one may be refused. Link with -Wl,--wrap=malloc,--wrap=realloc,--wrap=free. */
#ifndef TEST_H
#define TEST_H

#include "pct.h"
#include <stdio.h>
#include <stdlib.h>
#include <string.h>

static long checks_passed, checks_failed;

static void is(int holds, const char *what, int line) {
    checks_passed += holds != 0;
    checks_failed += holds == 0;
    if (!holds) printf("FAILED: line %d: %s\n", line, what);
}

#define IS(condition) is((condition) != 0, #condition, __LINE__)

/* How many blocks the library has, and how many requests from now on are met before one is refused; below 0 none is. */
static long live_blocks, requests_before_refusal = -1;

void *__real_malloc(size_t size);
void *__real_realloc(void *block, size_t size);
void __real_free(void *block);
void *__wrap_malloc(size_t size);
void *__wrap_realloc(void *block, size_t size);
void __wrap_free(void *block);

static int is_refused(void) {
    if (requests_before_refusal < 0) return 0;
    return requests_before_refusal-- == 0;
}

void *__wrap_malloc(size_t size) {
    void *block = is_refused() ? NULL : __real_malloc(size);
    live_blocks += block != NULL;
    return block;
}

void *__wrap_realloc(void *block, size_t size) {
    void *other = is_refused() ? NULL : __real_realloc(block, size);
    live_blocks += other != NULL && block == NULL;
    return other;
}

void __wrap_free(void *block) {
    live_blocks -= block != NULL;
    __real_free(block);
}

#endif
