/* Part of pct_test.c: the words of main. */

/* An option takes a text, or a number from the least to the most; of a flag the most is 0. */
static const struct Option {
    const char *word, *value;
    const char **text;
    uint64_t *number, least, most;
    const char *says;
} OPTIONS[] = {
    { "--test", "NAME", &test.only, NULL, 0, 0, "makes this test of the program alone" },
    { "--seeds", "N", NULL, &test.seeds, 1, PCT_MOST_STEPS,
      "so many seeds; without it 1000 (1 to 100000)" },
    { "--depth", "D", NULL, &test.depth, 1, PCT_MOST_POINTS + 1,
      "with D-1 change points; without it at the depths 1, 2 and 3 (1 to 8)" },
    { "--from", "SEED", NULL, &test.from, 0, UINT64_MAX, "from this seed on; without it from 1" },
    { "--threads", "N", NULL, &test.threads, 1, MOST,
      "at least how many threads an order is drawn of (1 to 64)" },
    { "--steps", "K", NULL, &test.steps, 1, PCT_MOST_STEPS,
      "from which steps change points are drawn (1 to 100000)" },
    { "--limit", "STEPS", NULL, &test.limit, 1, PCT_MOST_STEPS - MOST,
      "how many steps a run may have; without it 10000 (1 to 99936)" },
    { "--patience", "SECONDS", NULL, &test.patience, 1, 3600,
      "after how long without a step a run is ended; without it 10 (1 to 3600)" },
    { "--isolate", NULL, NULL, &test.isolate, 0, 0, "makes a process for each run" },
    { "--lanes", NULL, NULL, &test.lanes, 0, 0, "prints a failing run, a lane for each thread" },
    { "--trace", "FILE", &test.trace, NULL, 0, 0,
      "writes its trace there; without it to PROGRAM.TEST.trace in the current folder" },
    { "--json", "FILE", &test.json, NULL, 0, 0, "writes its document, for pct-hunt --page" },
    { "--replay", "FILE", &test.replay, NULL, 0, 0,
      "makes the run of a trace again; under a debugger in this process" },
    { "--find", NULL, NULL, &test.finds, 0, 0, "prints the directive of the shortest failing run" },
    { "--certify", NULL, NULL, &test.certifies, 0, 0,
      "and whether each order leads to its verdict (at most 7 threads)" },
    { "--campaign", NULL, NULL, &test.campaign, 0, 0,
      "runs every seed at the depth that is given, and prints the report" },
    { "--traces", "FILE", &test.traces, NULL, 0, 0, "writes the trace of each run" },
};

static void __attribute__((noreturn)) print_help(void) {
    printf("usage: %s [OPTION]..\n\nMakes the runs of each test under the PCT scheduler.\n\n",
           test.program);
    for (size_t i = 0; i < LENGTH(OPTIONS); i++) {
        const struct Option *option = &OPTIONS[i];
        int used = printf("  %s %s", option->word, option->value ? option->value : "");
        printf("%*s%s\n", used < 22 ? 22 - used : 1, "", option->says);
    }
    printf("\nStatus: 0 where no run failed; 1 where one did, or words or the test are refused; "
           "7 where\noutput is lost.\n");
    if (fflush(stdout) != 0) lost("standard output");
    _exit(0);
}

static void __attribute__((noreturn)) refuse(const char *word) {
    fprintf(stderr, "pct: %s isn't understood; the options are --help", word);
    for (size_t i = 0; i < LENGTH(OPTIONS); i++) fprintf(stderr, " %s", OPTIONS[i].word);
    fputc('\n', stderr);
    exit(1);
}

/* As the program ends: a test that was asked for and isn't there is no pass. */
static void miss_test(void) {
    if (!test.only || test.is_there) return;
    fprintf(stderr, "pct: no test is called %s\n", test.only);
    fflush(NULL);
    _exit(1);
}

static void take_number(const struct Option *option, const char *word) {
    char *rest;
    errno = 0;
    uint64_t number = strtoull(word, &rest, 10);
    bool is_number = !errno && !*rest && *word >= '0' && *word <= '9';
    if (!is_number || number < option->least || number > option->most)
        sentence("%s takes a number from %llu to %llu, and not %s", option->word,
                 (unsigned long long)option->least, (unsigned long long)option->most, word);
    *option->number = number;
}

void pct_options(int count, char **words) {
    const struct Option *end = OPTIONS + LENGTH(OPTIONS);
    keep_standard_files();
    if (count > 0) test.program = words[0];
    for (int i = 1; i < count; i++) {
        const struct Option *option = OPTIONS;
        if (strcmp(words[i], "--help") == 0 || strcmp(words[i], "-h") == 0) print_help();
        while (option < end && strcmp(option->word, words[i]) != 0) option++;
        bool is_flag = option < end && !option->value;
        if (option == end || (!is_flag && i + 1 == count)) refuse(words[i]);
        if (is_flag)
            *option->number = 1;
        else if (option->text)
            *option->text = words[++i];
        else
            take_number(option, words[++i]);
    }
    atexit(miss_test);
}
