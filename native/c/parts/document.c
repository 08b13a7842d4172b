/* Part of pct_test.c: the first part of the document. */

static void put_text(FILE *to, const char *before, const char *words) {
    fprintf(to, "%s\"", before);
    for (; *words; words++) {
        bool is_escaped = (unsigned char)*words < ' ' || *words == '"' || *words == '\\';
        fprintf(to, is_escaped ? "\\u%04x" : "%c", (unsigned char)*words);
    }
    fputc('"', to);
}

/* Each file in which a step stands, with its text. */
static void put_sources(FILE *to) {
    const char *before = ",\"sources\":[{\"file\":";
    for (const Place *place = shared->places + 1; place <= shared->places + MOST_LINE; place++) {
        const Place *first = shared->places + 1; /* one in the same file */
        while (first->file != place->file) first++;
        if (!place->file || first != place) continue;
        const char *file = file_of(place);
        char *whole = access(file, R_OK) == 0 ? read_file(file) : NULL;
        put_text(to, before, file);
        put_text(to, ",\"text\":", whole ? whole : "");
        free(whole);
        before = "},{\"file\":";
    }
}

static void put_objects(FILE *to, uint32_t kind) {
    fprintf(to, "%s\"%s\":[", kind ? "]," : "", KINDS[kind].list);
    for (uint32_t i = 0; i < run->many[kind]; i++) {
        char first[24];
        snprintf(first, sizeof first, "%lld", (long long)run->first[kind][i]);
        if (kind == PCT_THREADS) strcpy(first, i < test.declared ? "false" : "true");
        if (i) fputc(',', to);
        fprintf(to, KINDS[kind].item, run->names[kind][i], first);
    }
}

static void put_steps(FILE *to, const char *before, uint32_t from, uint32_t end) {
    fputs(before, to);
    for (uint32_t i = from; i < end; i++) {
        const PctEvent *step = &run->log[i];
        Place place = shared->places[step->line];
        fprintf(to, "%s{\"thread\":\"%s\",\"ask\":\"%s\",\"line\":%d", i > from ? "," : "",
                who(step->thread), ask_text(step), place.line);
        if (i < run->steps) fprintf(to, ",\"answer\":\"%lld\"", (long long)step->answer);
        put_text(to, ",\"file\":", file_of(&place));
        if (place.is_near) fputs(",\"near\":true", to);
        fputc('}', to);
    }
}

static void put_threads(FILE *to, const char *before, const uint32_t *threads, uint32_t many) {
    fputs(before, to);
    for (uint32_t i = 0; i < many; i++) fprintf(to, "%s\"%s\"", i ? "," : "", who(threads[i]));
}

static void put_run(FILE *to) {
    const Plan *plan = &run->plan;
    uint32_t end = add_asking(), ended[MOST], many = 0;
    for (uint32_t thread = 0; thread < run->threads; thread++)
        if (run->seats[thread].late.state == ENDED) ended[many++] = thread;
    fprintf(to, "{");
    if (run->end == DIED) put_text(to, "\"died\":", run->told);
    fprintf(to, "%s\"limit\":%llu,\"verdict\":\"%s\",\"seed\":", run->end == DIED ? "," : "",
            (unsigned long long)test.limit, verdict_text());
    fprintf(to, plan->depth ? "{\"seed\":\"%llu\",\"depth\":%u,\"steps\":%u}" : "null",
            (unsigned long long)plan->seed, plan->depth, search.steps);
    put_threads(to, ",\"order\":[", plan->order, plan->threads);
    put_threads(to, "],\"ended\":[", ended, many);
    put_steps(to, "],\"steps\":[", 0, run->steps);
    put_steps(to, "],\"asking\":[", run->steps, end);
    fputs("],\"points\":[", to);
    for (uint32_t i = 0; i < plan->point_count; i++)
        fprintf(to, "%s%u", i ? "," : "", plan->points[i]);
    fputs("]}", to);
}

static void write_document(const char *trace) {
    Output output = open_output(test.json);
    FILE *to = output.to;
    char command[9000];
    snprintf(command, sizeof command, "%s --replay %s", test.program, trace);
    put_text(to, "{\"document\":1,\"writer\":\"pct_test.c\",\"title\":", test.title);
    put_sources(to);
    fputs("}],\"names\":{},\"deal\":{", to);
    for (uint32_t kind = 0; kind < PCT_KINDS; kind++) put_objects(to, kind);
    fputs("]},\"headings\":[{\"run\":", to);
    put_run(to);
    put_text(to, ",\"again\":[{\"says\":\"shows this run again\",\"command\":", command);
    fputs("}]}]}\n", to);
    close_output(&output);
}
