/* Part of pct_test.c: what the runner and its children share, what a child inherits, and how a
 * check ends. */

/* What a thread asks next. Of an access of memory the ask is made when the book waits for it, by
   the value that stands then. */
typedef struct Late {
    PctAsk ask;
    PctAccess access;
    enum { AWAY, BROUGHT, POSTED, ENDED } state;
    bool is_freed;     /* the memory of an access was freed since it was brought */
    bool is_forbidden; /* the address sanitizer forbids it */
    uint32_t line, form;
    void *at;
    int64_t x, y, old, new; /* old, new: what stands at the address, and what the access makes it */
} Late;

/* By what a run goes. */
typedef struct Plan {
    enum { BY_SEED, BY_POINTS, BY_DIRECTIVE, BY_LIST } policy;
    bool is_loud; /* what its threads print is seen */
    uint64_t seed;
    uint32_t depth, threads, listed; /* depth: 0 where no seed drew the order */
    uint32_t order[MOST], point_count, points[PCT_MOST_POINTS];
    PctDirective directive;
} Plan;

typedef struct Seat {
    pthread_t real;
    void *(*function)(void *);
    void *argument, *value;
    uint32_t parent, nth, children; /* who created it, as which from 1; how many it created */
    uint32_t semaphore;             /* one more than that at which it waits for others, or 0 */
    uint32_t sleeps_since;          /* the step with which it fell asleep at the futex */
    const volatile void *sleeps_at;
    uint32_t sleeps;                          /* since it or another thread has changed something */
    bool is_detached, is_joined, has_changed; /* has_changed: by its last step */
    int64_t answer;
    PctPlace last; /* where it took a step */
    uint32_t line; /* the number of that place */
    pid_t task;    /* the system's number of the thread */
    Late late;
} Seat;

typedef struct Run {
    Plan plan;
    uint32_t threads;             /* one more than the greatest that was used */
    uint32_t steps, baton, begun; /* begun: how many of the declared threads have asked */
    Seat seats[MOST];
    uint32_t many[PCT_KINDS]; /* objects that were used, and threads of the order */
    uint64_t gone[PCT_KINDS]; /* a bit for each that was destroyed */
    char names[PCT_KINDS][MOST][PCT_MOST_NAME + 1];
    int64_t first[PCT_KINDS][MOST], now[PCT_KINDS][MOST]; /* of variables, semaphores, barriers */
    struct {
        void *at;
        uint32_t bytes, step; /* the last step that touched it */
        uint64_t touched;     /* the threads that did, since it was made */
        int64_t left;         /* what that step left in its memory */
    } variables[MOST];
    uint32_t pointer_count;
    uint64_t waiting, waits, news; /* threads in pct_yield; semaphores for it; see pct_yield_at */
    /* How it ended. Of DIED the verdict is that of an assertion that fails in the last line. */
    enum End { GOES, OUTCOME, MORE_THREADS, DIED, SENTENCE, LOST } end;
    PctOutcome outcome;
    char told[512];                          /* of DIED, SENTENCE and LOST */
    PctEvent log[PCT_MOST_STEPS + MOST + 1]; /* its steps, and who asks behind them */
} Run;

/* A near step stands in an operator or in a header of std's, after this place. */
typedef struct Place {
    uint32_t file; /* where its name stands in the shared texts; 0 where there is none */
    int line;
    bool is_near;
} Place;

/* What debug information says of callers: their return addresses, as one number, and the place. */
typedef struct Caller {
    uint64_t frames;
    uint32_t file; /* 0 where nothing is known */
    int line;
} Caller;

/* Of a thread that takes no step: its stack, and the number of the system call it waits in. */
typedef struct Silence {
    long call;
    _Atomic int count;
    void *frames[MOST_FRAMES];
} Silence;

static struct Shared {
    uint64_t before; /* a number of this child, as long as no thread writes over what is shared */
    Run run;
    uint64_t behind;          /* as `before` */
    uint32_t left;            /* of the search: how many runs are to come */
    uint32_t deal[PCT_KINDS]; /* how many objects the deal has, and their values */
    int64_t deal_first[PCT_KINDS][MOST];
    uint32_t stamp;    /* of this run */
    uint64_t asks;     /* how many were made, by which the watchdog sees that the run goes on */
    bool is_sanitized; /* a sanitizer has ended the child */
    char summary[120]; /* and what it said */
    Place places[MOST_LINE + 1]; /* by their numbers, the lines of traces */
    PctRow rows[PCT_MOST_STEPS];
    Caller callers[MOST_CALLERS];
    Silence silence;
    bool has_no_addr2line;
    uint32_t text_end;
    char texts[1 << 16]; /* names of files, each ended by a zero, from 1 on */
} * shared;
static Run *run;

/* Of the search: n and k, its runs, the first one of them, the depth that it begins with. */
static struct { uint32_t threads, steps, all, first, least_depth; } search;
static Run kept;     /* a failing run, while others are made; that GOES where there is none */
static Run declared; /* the run in declared order, where it fails */

static struct {
    void (*reset)(void), (*const *functions)(void);
    const char *const *names;
    uint32_t declared;
    PctPlace place;
    const char *program, *only, *replay, *trace, *json, *traces;
    const char *traced; /* the names of the trace that is replayed, as lines of so many bytes */
    size_t traced_bytes;
    bool is_there; /* the test that is to be run */
    char name[64], title[400];
    uint64_t from, seeds, depth, threads, steps, limit, patience;
    uint64_t finds, certifies, lanes, campaign, isolate;
} test = { .program = "test", .from = 1, .seeds = 1000, .limit = 10000, .patience = 10 };

static struct {
    PctBook book;
    PctTurn turn;
    sem_t goes[MOST], over;
    pid_t process;
    bool runs;
    bool is_forked;     /* in a process that a thread of the run has forked */
    void (*ends)(void); /* of a run in the runner's own process what follows it */
} child;
static struct {
    const volatile void *at;
    const char *name;
} named[4 * MOST];
static uint32_t named_count;
static void *pointers[MOST_POINTERS];
static uint32_t list[PCT_MOST_STEPS]; /* of a replay, who takes each step */
static char *written;                 /* and the steps of its trace that are to come */
static FILE *traces;                  /* of all runs, where they are asked for */
static pthread_key_t at_end;
static pid_t runner;                    /* the process that makes children */
static _Thread_local uint32_t own_seat; /* one more than the thread's number */

/* Ends the child without a sanitizer's looks at threads and memory that a failing run leaves. */
static void __attribute__((noreturn)) leave(enum End end) {
    run->end = end;
    child.runs = false;
    if (child.ends) child.ends();
    fflush(NULL);
    syscall(SYS_exit_group, 0);
    __builtin_unreachable();
}

/* The check ends with this sentence, which the runner tells where a run comes to it: by status 1,
   or by 7 where output is lost. */
static void __attribute__((format(printf, 2, 3), noreturn))
end_check(enum End end, const char *form, ...) {
    char told[sizeof run->told];
    va_list words;
    va_start(words, form);
    vsnprintf(told, sizeof told, form, words);
    va_end(words);
    if (child.runs) {
        memcpy(run->told, told, sizeof told);
        leave(end);
    }
    fprintf(stderr, "pct: %s\n", told);
    test.only = NULL; /* no other sentence follows */
    exit(end == LOST ? 7 : 1);
}
#define sentence(...) end_check(SENTENCE, __VA_ARGS__)
#define lost(name) end_check(LOST, "%s: what is written there is lost", (name))

static void demand(uint32_t status, const char *call) {
    if (status != PCT_DONE) sentence("a fault of the layer: %s answered %u", call, status);
}
#define DEMAND(call) demand((call), #call)
