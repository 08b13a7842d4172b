/* Part of pct_test.c: where callers stand, by debug information, which llvm-addr2line reads, or
 * addr2line. */

extern char **environ;

static const char *base_of(const char *path) {
    const char *slash = strrchr(path, '/');
    return slash ? slash + 1 : path;
}

/* Where the text of a file's name stands among those that are shared. */
static uint32_t kept_text(const char *words) {
    uint32_t at = 1, bytes = (uint32_t)strlen(words) + 1;
    for (; at < shared->text_end; at += (uint32_t)strlen(shared->texts + at) + 1)
        if (strcmp(shared->texts + at, words) == 0) return at;
    if (bytes > sizeof shared->texts - at) sentence("the names of the steps' files are too long");
    memcpy(shared->texts + at, words, bytes);
    shared->text_end = at + bytes;
    return at;
}

/* Where a module's addresses begin that debug information has: 0 of a program at fixed ones. */
static uintptr_t base_in(const Dl_info *module) {
    const Elf64_Ehdr *head = module->dli_fbase;
    return head->e_type == ET_DYN ? (uintptr_t)head : 0;
}

/* Starts addr2line with these words, and what it writes; NULL where it isn't there. */
static FILE *ask_addr2line(char *const *words, pid_t *process) {
    int ends[2];
    if (pipe2(ends, O_CLOEXEC) != 0) return NULL;
    posix_spawn_file_actions_t actions;
    posix_spawn_file_actions_init(&actions);
    posix_spawn_file_actions_adddup2(&actions, ends[1], 1);
    posix_spawn_file_actions_addopen(&actions, 2, "/dev/null", O_WRONLY, 0);
    bool is_there = posix_spawnp(process, words[0], &actions, NULL, words, environ) == 0;
    posix_spawn_file_actions_destroy(&actions);
    close(ends[1]);
    if (!is_there) close(ends[0]);
    return is_there ? fdopen(ends[0], "r") : NULL;
}

/* Whether a file is one of the layer's parts. */
static bool is_part(const char *file) {
    static const char OWN[] =
        " atomic.hpp futures.hpp guards.hpp place.hpp sync.hpp threads.hpp baton.c "
        "debug.c objects.c places.c statics.c threads.c ";
    char name[300];
    snprintf(name, sizeof name, " %.280s ", base_of(file));
    return strstr(file, "/parts/") && strstr(OWN, name);
}

/* Whether a function and its file are neither std's nor the layer's. */
static bool is_tests(const char *function, const char *file) {
    static const char *const NAMES[] = { "_ZN3pct", "_ZNK3pct", "_ZSt", "_ZNSt", "_ZNKSt", "pct_" };
    for (size_t i = 0; i < LENGTH(NAMES); i++)
        if (strncmp(function, NAMES[i], strlen(NAMES[i])) == 0) return false;
    return *file != '?' && !is_part(file) && !strstr(file, "/include/c++/") &&
           !strstr(file, "/pct_test.");
}

/* Reads the first place of the test's from what addr2line writes: of each call that is inlined or
   not a line with its function and one with its place. */
static bool read_place(FILE *said, char *file, size_t most, int *line) {
    char function[4096], place[4096];
    bool is_found = false;
    while (fgets(function, sizeof function, said) && fgets(place, sizeof place, said)) {
        char *colon = strrchr(place, ':');
        if (is_found || !colon || atoi(colon + 1) <= 0) continue;
        *colon = 0;
        is_found = is_tests(function, place);
        if (!is_found) continue;
        *line = atoi(colon + 1);
        snprintf(file, most, "%s", place);
    }
    return is_found;
}

/* Of return addresses, the innermost first, the first place in the test's code. Those of other
   modules than the first one's are passed over. */
static bool find_place(void *const *frames, int count, char *file, size_t most, int *line) {
    char *words[MOST_FRAMES + 5] = { "llvm-addr2line", "-fi", "-e" }, digits[MOST_FRAMES][20],
                              path[40];
    Dl_info module, other;
    int used = 3;
    if (!count || !dladdr(frames[0], &module)) return false;
    snprintf(path, sizeof path, "/proc/%d/exe", (int)getpid());
    bool is_file = module.dli_fname && access(module.dli_fname, R_OK) == 0;
    words[used++] = is_file ? (char *)module.dli_fname : path;
    for (int i = 0; i < count; i++) {
        bool is_there = dladdr(frames[i], &other) && other.dli_fbase == module.dli_fbase;
        if (!is_there) continue;
        snprintf(digits[i], sizeof digits[i], "0x%lx",
                 (unsigned long)((uintptr_t)frames[i] - 1 - base_in(&module)));
        words[used++] = digits[i];
    }
    pid_t process;
    FILE *said = ask_addr2line(words, &process);
    words[0] = "addr2line"; /* binutils 2.40 knows less of what clang makes */
    if (!said) said = ask_addr2line(words, &process);
    shared->has_no_addr2line = !said;
    bool is_found = said && read_place(said, file, most, line);
    if (said) fclose(said);
    if (said) waitpid(process, NULL, 0);
    return is_found;
}

/* The name of a file as the test's own steps have it, where it is that file's. */
static const char *as_tests(const char *file) {
    size_t bytes = strlen(file), own = strlen(test.place.file);
    bool is_own = bytes > own && file[bytes - own - 1] == '/';
    return is_own && strcmp(file + bytes - own, test.place.file) == 0 ? test.place.file : file;
}

static Caller *caller_of(uint64_t frames) {
    Caller *known = &shared->callers[frames % MOST_CALLERS];
    for (uint32_t tried = 0; tried < MOST_CALLERS; tried++) {
        if (!known->frames || known->frames == frames) return known;
        if (++known == shared->callers + MOST_CALLERS) known = shared->callers;
    }
    return NULL;
}

/* The place in the test's code from which the layer was called, where debug information has it.
   It is looked up once for each way there. */
static bool find_caller(PctPlace *place) {
    void *frames[16];
    char file[4096];
    uint64_t way = 14695981039346656037u;
    if (shared->has_no_addr2line) return false;
    int count = backtrace(frames, LENGTH(frames));
    for (int i = 0; i < count; i++) way = (way ^ (uintptr_t)frames[i]) * 1099511628211u;
    Caller *known = caller_of(way | 1);
    if (!known) return false;
    if (!known->frames) {
        *known = (Caller){ .frames = way | 1 };
        shared->asks++; /* a look takes a while, and isn't silence */
        if (find_place(frames, count, file, sizeof file, &known->line))
            known->file = kept_text(as_tests(file));
    }
    if (known->file) place->file = shared->texts + known->file;
    if (known->file) place->line = known->line;
    return known->file;
}
