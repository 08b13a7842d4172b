/* Part of pct_test.c: what is told of a thread that takes no step for two seconds. */

#define LOOKS SIGURG     /* the signal by which a thread looks at its own stack */
#define SILENT 2000      /* milliseconds */
#define MOST_LOOKING 200 /* and so many more for the look */

#ifdef __x86_64__
/* A system call that the signal has ended by EINTR is made again. */
static void make_again(ucontext_t *context) {
    greg_t *registers = context->uc_mcontext.gregs;
    const uint8_t *call = (const uint8_t *)registers[REG_RIP] - 2;
    if (registers[REG_RAX] != -EINTR || call[0] != 0x0f || call[1] != 0x05) return;
    if (shared->silence.call < 0) return;
    registers[REG_RIP] -= 2;
    registers[REG_RAX] = shared->silence.call;
}
#else
static void make_again(ucontext_t *context) { (void)context; }
#endif

static void look_at_stack(int signal, siginfo_t *from, void *context) {
    int before = errno;
    (void)signal, (void)from;
    make_again(context);
    shared->silence.count = backtrace(shared->silence.frames, MOST_FRAMES);
    errno = before;
}

/* In a child, before its runs; the first backtrace loads what it needs. */
static void be_ready_to_look(void) {
    struct sigaction action = { .sa_sigaction = look_at_stack,
                                .sa_flags = SA_RESTART | SA_SIGINFO };
    void *frame[1];
    backtrace(frame, 1);
    sigaction(LOOKS, &action, NULL);
}

/* The number of the system call in which a thread waits, or -1. */
static long call_of(pid_t process, pid_t task) {
    char path[60];
    long call = -1;
    snprintf(path, sizeof path, "/proc/%d/task/%d/syscall", (int)process, (int)task);
    FILE *file = fopen(path, "r");
    if (file && fscanf(file, "%ld", &call) != 1) call = -1;
    if (file) fclose(file);
    return call;
}

/* Has the child's thread look at its stack; how many frames it found. */
static int ask_for_stack(pid_t process, pid_t task) {
    Silence *silence = &shared->silence;
    silence->count = 0;
    silence->call = call_of(process, task);
    if (syscall(SYS_tgkill, process, task, LOOKS) != 0) return 0;
    for (int waited = 0; silence->count == 0 && waited < MOST_LOOKING; waited++) usleep(1000);
    return silence->count < 0 || silence->count > MOST_FRAMES ? 0 : silence->count;
}

/* The first of the frames from a place on that is in the module in which the layer is. */
static int first_own(void *const *frames, int from, int count) {
    Dl_info own, there;
    if (!dladdr((void *)(uintptr_t)first_own, &own)) return count;
    while (from < count && !(dladdr(frames[from], &there) && there.dli_fbase == own.dli_fbase))
        from++;
    return from;
}

/* The name of the function of a frame, without the underscores before it. */
static const char *function_of(void *frame) {
    Dl_info there;
    const char *name = dladdr(frame, &there) ? there.dli_sname : NULL;
    while (name && *name == '_') name++;
    return name;
}

/* One line of the thread that is silent, on standard error. */
static void tell_silence(pid_t process) {
    uint32_t thread = run->baton;
    if (thread >= MOST || !run->seats[thread].task) return;
    const Seat *seat = &run->seats[thread];
    void *const *frames = shared->silence.frames;
    int count = ask_for_stack(process, seat->task), line = 0;
    int signal = first_own(frames, 0, count), from = first_own(frames, signal + 1, count);
    const char *called = from > signal + 2 && from < count ? function_of(frames[from - 1]) : NULL;
    char file[4096], waits[200] = "is in its own code";
    bool is_found = find_place(frames + from, count - from, file, sizeof file, &line);
    if (called) snprintf(waits, sizeof waits, "waits in %s", called);
    fprintf(stderr, "pct: no step for %d seconds: %s %s", SILENT / 1000, who(thread), waits);
    if (is_found) fprintf(stderr, ", %s %s:%d", called ? "called from" : "at", base_of(file), line);
    fprintf(stderr, ", after its step at %s; %s\n", line_text(seat->line),
            called ? "this call isn't the layer's, and while it waits no other thread goes on"
                   : "while it goes on without a step no other thread does");
}
