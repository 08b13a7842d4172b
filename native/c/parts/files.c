/* Part of pct_test.c: files: traces and their places. */

/* The whole of a file that is read, as a text. */
static char *read_file(const char *name) {
    FILE *file = fopen(name, "r");
    if (!file) sentence("%s can't be opened", name);
    size_t bytes = fseek(file, 0, SEEK_END) == 0 ? (size_t)ftell(file) : 0;
    char *whole = calloc(bytes + 1, 1);
    rewind(file);
    if (!whole || fread(whole, 1, bytes, file) != bytes) sentence("%s can't be read", name);
    fclose(file);
    return whole;
}

/* A file that is written: beside its name, which it gets where it is whole. What is no file, as
   /dev/full, is written at once. No symbolic link is followed to a file. */
typedef struct Output {
    FILE *to;
    const char *name;
    char beside[4200]; /* "" where there is none */
} Output;

static Output open_output(const char *name) {
    Output output = { .name = name };
    struct stat there, behind;
    bool is_there = lstat(name, &there) == 0, is_link = is_there && S_ISLNK(there.st_mode);
    bool is_linked_file = is_link && (stat(name, &behind) != 0 || S_ISREG(behind.st_mode));
    if (!is_there || S_ISREG(there.st_mode) || is_linked_file) {
        mode_t mask = umask(0);
        umask(mask);
        snprintf(output.beside, sizeof output.beside, "%s.XXXXXX", name);
        int file = mkstemp(output.beside);
        output.to = file < 0 || fchmod(file, 0666 & ~mask) != 0 ? NULL : fdopen(file, "w");
    } else
        output.to = fopen(name, "w");
    if (!output.to) lost(name);
    return output;
}

static void close_output(Output *output) {
    bool is_whole = !ferror(output->to) && fflush(output->to) == 0;
    is_whole = fclose(output->to) == 0 && is_whole;
    if (is_whole && *output->beside) is_whole = rename(output->beside, output->name) == 0;
    if (!is_whole && *output->beside) unlink(output->beside);
    if (!is_whole) lost(output->name);
}

/* A trace's other file: FILE.trace has FILE.sites. */
static const char *sites_name(const char *trace) {
    static char name[4096];
    const char *dot = strrchr(base_of(trace), '.');
    int stem = (int)(dot && strcmp(dot, ".trace") == 0 ? (size_t)(dot - trace) : strlen(trace));
    snprintf(name, sizeof name, "%.*s.sites", stem, trace);
    return name;
}

static void write_sites(FILE *sites) {
    fprintf(sites, "sites 2\nseed %llu\nfile %s\ntest %s\n%s", (unsigned long long)run->plan.seed,
            test.place.file, test.name, names_of_run());
    for (int number = MOST_LINE; number > 0; number--) {
        const Place *place = &shared->places[number];
        if (place->file && !is_own_line(place, number))
            fprintf(sites, "%d %s %d %s\n", number, place->is_near ? "near" : "at", place->line,
                    file_of(place));
    }
}

static void write_trace(const char *name) {
    Output trace = open_output(name);
    fputs(trace_text(run->log, run->steps), trace.to);
    close_output(&trace);
    Output sites = open_output(sites_name(name));
    write_sites(sites.to);
    close_output(&sites);
}
