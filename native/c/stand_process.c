/*
 * The runner. The program is started by pct-try, with two descriptors in PCT_STAND: by one come
 * lines that say which runs to make, by the other go lines that say what came of them. It stands
 * before main: of each run a process is forked, which goes on into the program. Without PCT_STAND
 * the program just runs.
 *
 * Lines that come: set NAME NUMBER; learned PC, ignore PC, list THREAD.., forget; run SEED DEPTH;
 * search FROM COUNT DEPTH DEPTH; tell; modules. Each of the last four is answered by lines, of
 * which the last is `.`.
 */
#include "stand_process.h"

#include <errno.h>
#include <inttypes.h>
#include <signal.h>
#include <stdlib.h>
#include <string.h>
#include <sys/mman.h>
#include <sys/personality.h>
#include <sys/time.h>
#include <sys/wait.h>
#include <unistd.h>

static FILE *commands, *answers;
static volatile sig_atomic_t run_process; /* of the run that goes on, or 0 */
static volatile sig_atomic_t idle_seconds;
static volatile uint64_t moves_seen;

/* --- A run --- */

static void on_second(int number) {
    (void)number;
    if (!run_process) return;
    uint64_t moves = shared->moves + shared->plain_accesses;
    idle_seconds = moves == moves_seen ? idle_seconds + 1 : 0;
    moves_seen = moves;
    if ((uint32_t)idle_seconds > shared->plan.patience) kill((pid_t)run_process, SIGKILL);
}

static void watch(void) {
    struct sigaction action = { .sa_handler = on_second, .sa_flags = SA_RESTART };
    struct itimerval each = { { 1, 0 }, { 1, 0 } };
    sigaction(SIGALRM, &action, NULL);
    setitimer(ITIMER_REAL, &each, NULL);
}

static void clear_run(void) {
    shared->end = GOES;
    shared->told[0] = 0;
    shared->step_count = shared->accesses_told = 0;
    shared->seat_count = 1;
    shared->hash = 14695981039346656037U;
    shared->status = 0;
    memset(shared->points, 0, sizeof shared->points);
    memset(shared->waiting, 0, sizeof shared->waiting);
}

bool make_run(void) {
    clear_run();
    idle_seconds = 0;
    pid_t process = fork();
    if (process == 0) {
        signal(SIGALRM, SIG_DFL);
        begin_run();
        return true;
    }
    if (process < 0) {
        shared->end = REFUSED;
        snprintf(shared->told, sizeof shared->told, "the system makes no further process: %s",
                 strerror(errno));
        return false;
    }
    int status = 0;
    run_process = process;
    while (waitpid(process, &status, 0) < 0 && errno == EINTR) {}
    run_process = 0;
    shared->status = (uint32_t)status;
    return false;
}

bool has_failed(void) { return shared->end != GOES || shared->status != 0; }

/* --- Lines --- */

static const struct {
    const char *name;
    size_t place;
} SETTINGS[] = {
    { "seats", offsetof(Plan, seats) },      { "steps", offsetof(Plan, steps) },
    { "limit", offsetof(Plan, limit) },      { "plain", offsetof(Plan, plain) },
    { "reuse", offsetof(Plan, is_reusing) }, { "early", offsetof(Plan, is_early) },
    { "chaos", offsetof(Plan, is_chaotic) }, { "loud", offsetof(Plan, is_loud) },
    { "frozen", offsetof(Plan, is_frozen) }, { "patience", offsetof(Plan, patience) },
};

static void set(const char *name, uint32_t value) {
    for (size_t i = 0; i < sizeof SETTINGS / sizeof *SETTINGS; i++)
        if (strcmp(SETTINGS[i].name, name) == 0)
            *(uint32_t *)((char *)&shared->plan + SETTINGS[i].place) = value;
}

static void put_learned(uintptr_t pc) {
    uint32_t slot = (uint32_t)(pc * 2654435761U) % MOST_LEARNED;
    while (shared->learned[slot] && shared->learned[slot] != pc) slot = (slot + 1) % MOST_LEARNED;
    shared->learned_count += shared->learned[slot] != pc;
    shared->learned[slot] = pc;
}

static void read_list(char *words) {
    for (char *word = strtok(words, " "); word && shared->plan.listed < PCT_MOST_STEPS;
         word = strtok(NULL, " "))
        shared->list[shared->plan.listed++] = (uint32_t)strtoul(word, NULL, 10);
}

static void answer_run(void) {
    fprintf(answers, "run %" PRIu64 " %u %u %u %u %u %" PRIx64 "\n", shared->plan.seed,
            shared->plan.depth, (unsigned)shared->end, shared->step_count, shared->seat_count,
            shared->status, shared->hash);
}

/* Whether this is the process of a run now. */
static bool make_runs(uint64_t from, uint64_t count, uint32_t least, uint32_t most) {
    uint64_t runs = 0, steps = 0;
    for (uint64_t i = 0; i < count * (most - least + 1); i++) {
        shared->plan.seed = from + i / (most - least + 1);
        shared->plan.depth = least + (uint32_t)(i % (most - least + 1));
        if (make_run()) return true;
        runs++;
        steps += shared->step_count;
        if (has_failed()) answer_run();
        if (shared->end == MORE_SEATS) break;
    }
    fprintf(answers, "done %" PRIu64 " %" PRIu64 "\n", runs, steps);
    return false;
}

static bool obey_run(uint64_t seed, uint32_t depth) {
    shared->plan.seed = seed;
    shared->plan.depth = depth;
    if (make_run()) return true;
    answer_run();
    return false;
}

/* One line; whether this is the process of a run now. */
static bool obey(char *line) {
    char name[32];
    uint64_t a, b;
    unsigned c, d;
    uintptr_t pc;
    if (sscanf(line, "set %31s %u", name, &c) == 2) set(name, c);
    else if (sscanf(line, "learned %" SCNxPTR, &pc) == 1) put_learned(pc);
    else if (sscanf(line, "ignore %" SCNxPTR, &pc) == 1) {
        if (shared->ignored_count < MOST_LEARNED) shared->ignored[shared->ignored_count++] = pc;
    } else if (strncmp(line, "list ", 5) == 0) read_list(line + 5);
    else if (strcmp(line, "forget\n") == 0) shared->plan.listed = 0;
    else if (sscanf(line, "run %" SCNu64 " %u", &a, &c) == 2) {
        if (obey_run(a, c)) return true;
    } else if (sscanf(line, "search %" SCNu64 " %" SCNu64 " %u %u", &a, &b, &c, &d) == 4) {
        if (make_runs(a, b, c, d)) return true;
    } else if (strcmp(line, "tell\n") == 0) write_run(answers);
    else if (strcmp(line, "modules\n") == 0) write_modules(answers);
    if (strchr("rstm", line[0]) && strncmp(line, "set ", 4) != 0) {
        fputs(".\n", answers);
        fflush(answers);
    }
    return false;
}

/* Returns in the process of a run; the runner ends here. */
static void serve(void) {
    char *line = NULL;
    size_t room = 0;
    while (getline(&line, &room, commands) > 0)
        if (obey(line)) return;
    _exit(0);
}

/* --- Before main --- */

/* The same addresses each time, as far as the system lets it. */
static void begin_again(char **words) {
    int now = personality(0xffffffff);
    if (now < 0 || (now & ADDR_NO_RANDOMIZE) || getenv("PCT_STAND_AGAIN")) return;
    if (personality((unsigned long)now | ADDR_NO_RANDOMIZE) < 0) return;
    setenv("PCT_STAND_AGAIN", "1", 1);
    setenv("GLIBC_TUNABLES", "glibc.malloc.tcache_count=0:glibc.malloc.arena_max=1", 1);
    execv("/proc/self/exe", words);
}

/* What the program or the runner executes is no test. */
static void leave_environment(void) {
    static const char *names[] = { "PCT_STAND", "PCT_STAND_AGAIN", "LD_PRELOAD", "GLIBC_TUNABLES" };
    for (size_t i = 0; i < sizeof names / sizeof *names; i++) unsetenv(names[i]);
}

static void become_runner(const char *descriptors, char **words) {
    int in, out;
    if (sscanf(descriptors, "%d,%d", &in, &out) != 2) return;
    begin_again(words);
    leave_environment();
    commands = fdopen(in, "re");
    answers = fdopen(out, "we");
    shared = mmap(NULL, sizeof *shared, PROT_READ | PROT_WRITE,
                  MAP_SHARED | MAP_ANONYMOUS | MAP_NORESERVE, -1, 0);
    if (!commands || !answers || shared == MAP_FAILED) {
        fputs("pct: the runner has no memory or no descriptors\n", stderr);
        _exit(1);
    }
    shared->plan = (Plan){
        .seats = 1, .steps = 1, .limit = 50000, .plain = PLAIN_RACES, .patience = 10, .is_frozen = 1
    };
    watch();
    serve();
    close(in);
    close(out);
}

typedef int Main(int, char **, char **);
typedef int StartMain(Main *, int, char **, void (*)(void), void (*)(void), void (*)(void), void *);

EXPORT int __libc_start_main(Main *main_, int count, char **words, void (*init)(void),
                             void (*fini)(void), void (*linker_fini)(void), void *stack_end) {
    StartMain *start = (StartMain *)dlsym(RTLD_NEXT, "__libc_start_main");
    const char *descriptors = getenv("PCT_STAND");
    if (descriptors) become_runner(descriptors, words);
    return start(main_, count, words, init, fini, linker_fini, stack_end);
}
