/*
 * Runs a test's real threads one at a time, in the order that the library chooses. See pct_test.h.
 *
 * The runner forks. A child makes run after run until one doesn't pass; what a run comes to stands
 * in shared memory, so a child may die at any point. In a run one thread has the baton: it goes
 * with the answer of a step to the thread that took it, and comes back with that thread's next ask.
 * Only who brings it back looks at the book. An ask is posted when the book waits for it.
 */
#if defined PCT_PTHREAD_H || defined PCT_STDATOMIC_H || defined PCT_THREADS_H || defined PCT_POLL_H
#error "pct_test.c is compiled apart, without -include"
#endif
#define _GNU_SOURCE
#include "pct_test.h"

#include <dlfcn.h>
#include <elf.h>
#include <execinfo.h>
#include <fcntl.h>
#include <limits.h>
#include <malloc.h>
#include <poll.h>
#include <sched.h>
#include <semaphore.h>
#include <signal.h>
#include <spawn.h>
#include <stdarg.h>
#include <stdio.h>
#include <stdlib.h>
#include <string.h>
#include <sys/mman.h>
#include <sys/prctl.h>
#include <sys/stat.h>
#include <sys/syscall.h>
#include <sys/wait.h>
#include <ucontext.h>
#include <unistd.h>

#define MOST 64            /* threads, and objects of each kind */
#define MOST_LINE 4096     /* the greatest line of a trace */
#define MOST_POINTERS 4096 /* pointer values of a run */
#define MOST_FAILING 20    /* failing runs, after which a search stops */
#define MOST_TESTS 1024    /* of a main */
#define MOST_FRAMES 24     /* of a stack that is looked at */
#define MOST_CALLERS 1024  /* of which debug information is kept */
#define MOST_SLEEPS 5      /* of a thread in which nothing changes */
#define NOBODY UINT32_MAX
#define BIT(n) ((uint64_t)1 << (n))
#define LENGTH(list) (sizeof(list) / sizeof *(list))

_Static_assert(sizeof(void *) == 8 && __BYTE_ORDER__ == __ORDER_LITTLE_ENDIAN__,
               "pct_test.c is for 64 bits, the low byte first");

/* Of each kind: its word in names, and its list and an item of it in a document. */
static const struct {
    const char *word, *list, *item;
} KINDS[PCT_KINDS] = {
    { "thread", "threads", "{\"name\":\"%s\",\"held\":%s}" },
    { "var", "vars", "{\"name\":\"%s\",\"value\":\"%s\"}" },
    { "mutex", "mutexes", "\"%s\"" },
    { "cond", "conds", "\"%s\"" },
    { "sem", "sems", "{\"name\":\"%s\",\"count\":%s}" },
    { "barrier", "barriers", "{\"name\":\"%s\",\"size\":%s}" },
    { "rwlock", "rwlocks", "\"%s\"" },
};

/* Asks whose answer is 1 where they got it, and asks that change nothing which others may see. */
static const uint64_t TRIES = BIT(PCT_ASK_TRY_LOCK) | BIT(PCT_ASK_TRY_DOWN) |
                              BIT(PCT_ASK_TRY_RD_LOCK) | BIT(PCT_ASK_TRY_WR_LOCK),
                      IDLE = BIT(PCT_ASK_YIELD) | BIT(PCT_ASK_BEGIN) | BIT(PCT_ASK_JOIN) |
                             BIT(PCT_ASK_CHECK_HOLDS);

/* In this order. */
/* clang-format off */
#include "parts/state.c"
#include "parts/debug.c"
#include "parts/places.c"
#include "parts/texts.c"
#include "parts/book.c"
#include "parts/sanitizers.c"
#include "parts/memory.c"
#include "parts/baton.c"
#include "parts/freed.c"
#include "parts/threads.c"
#include "parts/objects.c"
#include "parts/poll.c"
#include "parts/statics.c"
#include "parts/silence.c"
#include "parts/child.c"
#include "parts/left.c"
#include "parts/runner.c"
#include "parts/tell.c"
#include "parts/files.c"
#include "parts/document.c"
#include "parts/replay.c"
#include "parts/directives.c"
#include "parts/check.c"
#include "parts/options.c"
/* clang-format on */
