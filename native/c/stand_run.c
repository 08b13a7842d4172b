/*
 * The process of a run: what is set before the program's first line, and how it dies. The program's
 * own main thread runs in it, so constructors, thread-locals and handlers of exit are part of the
 * run.
 */
#include "stand_process.h"

#include <fcntl.h>
#include <malloc.h>
#include <sched.h>
#include <signal.h>
#include <stdlib.h>
#include <string.h>
#include <unistd.h>

/* What the program reads from its input is the same in each run; what it writes is dropped. */
static void set_files(void) {
    int null = open("/dev/null", O_RDWR | O_CLOEXEC);
    if (lseek(STDIN_FILENO, 0, SEEK_SET) < 0) dup2(null, STDIN_FILENO);
    if (!shared->plan.is_loud) {
        dup2(null, STDOUT_FILENO);
        dup2(null, STDERR_FILENO);
    }
    close(null);
}

/* One processor, on which the baton changes hands without waking another one. */
static void stay_here(void) {
    cpu_set_t here;
    int processor = sched_getcpu();
    if (processor < 0) return;
    CPU_ZERO(&here);
    CPU_SET((unsigned)processor, &here);
    sched_setaffinity(0, sizeof here, &here);
}

/* --- Deaths: where, beside the process's status --- */

static void tell_death(End end, const char *text) {
    if (shared->end != GOES) return;
    shared->end = end;
    strncpy(shared->told, text, sizeof shared->told - 1);
    Access *access = &shared->accesses[0];
    *access = (Access){ .thread = (uint32_t)self.seat };
    keep_frames(access->frames);
    shared->accesses_told = 1;
}

static void on_death(int number, siginfo_t *info, void *context) {
    (void)info;
#ifdef __x86_64__
    self.pc = (uintptr_t)((ucontext_t *)context)->uc_mcontext.gregs[REG_RIP] + 1;
#else
    (void)context;
#endif
    if (is_tested()) tell_death(CRASH, strsignal(number));
}

static void watch_deaths(void) {
    static const int numbers[] = { SIGSEGV, SIGBUS, SIGFPE, SIGILL, SIGTRAP };
    struct sigaction action = { .sa_sigaction = on_death,
                                .sa_flags = SA_SIGINFO | (int)SA_RESETHAND };
    for (size_t i = 0; i < sizeof numbers / sizeof *numbers; i++)
        sigaction(numbers[i], &action, NULL);
}

EXPORT void __assert_fail(const char *text, const char *file, unsigned line, const char *function) {
    ENTER();
    if (is_tested()) {
        char told[sizeof shared->told];
        snprintf(told, sizeof told, "assertion `%s' fails", text);
        tell_death(ASSERTION, told);
    }
    REAL(__assert_fail)(text, file, line, function);
    __builtin_unreachable();
}

EXPORT void abort(void) {
    ENTER();
    if (is_tested()) tell_death(CRASH, "the program aborts");
    REAL(abort)();
    __builtin_unreachable();
}

/* --- The beginning --- */

void begin_run(void) {
    set_files();
    stay_here();
    begin_clocks();
    open_book();
    begin_threads();
    next_epoch();
    watch_deaths();
    mallopt(M_ARENA_MAX, 1);
}
