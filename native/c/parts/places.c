/* Part of pct_test.c: places of steps, and their numbers, the lines of traces. */

static const char *file_of(const Place *place) { return shared->texts + place->file; }

static const char *place_text(const char *file, int line, bool is_near) {
    static char words[300];
    snprintf(words, sizeof words, "%s%s:%d", is_near ? "after " : "", file ? base_of(file) : "?",
             line);
    return words;
}

static const char *line_text(uint32_t line) {
    const Place *place = &shared->places[line];
    return place_text(place->file ? file_of(place) : NULL, place->line, place->is_near);
}

static const char *who(uint32_t thread) { return run->names[PCT_THREADS][thread]; }

static bool is_own_line(const Place *place, int number) {
    return !place->is_near && place->line == number && !strcmp(file_of(place), test.place.file);
}

/* A line of the test's file is its own number; other places have numbers from 4096 down, in the
   order in which runs come to them. */
static uint32_t number_of_place(const char *file, int line, bool is_near) {
    bool is_own = !is_near && line > 0 && line <= MOST_LINE && !strcmp(file, test.place.file);
    for (int number = is_own ? line : MOST_LINE; number > 0; number--) {
        Place *known = &shared->places[number];
        if (!known->file) *known = (Place){ kept_text(file), line, is_near };
        bool is_there = known->line == line && known->is_near == is_near;
        if (is_there && strcmp(file_of(known), file) == 0) return (uint32_t)number;
    }
    sentence("steps stand at more than %d places", MOST_LINE);
}

/* Where a thread asks: at the place; where that is unknown or in a header of std's at the caller's
   that debug information knows; else after the place of its last ask. */
static uint32_t line_at(uint32_t me, PctPlace place) {
    Seat *seat = &run->seats[me];
    bool is_known = place.file && !strstr(place.file, "/include/c++/");
    if (!is_known) is_known = find_caller(&place);
    if (!is_known) return number_of_place(seat->last.file, seat->last.line, true);
    seat->last = place;
    return seat->line = number_of_place(place.file, place.line, false);
}

/* A process that a thread of the run has forked can't make steps: the run ends with that. */
static void __attribute__((noreturn)) refuse_forked(PctPlace place) {
    snprintf(run->told, sizeof run->told,
             "%s can't be a step: it stands in a process that a thread of the run has forked",
             place_text(place.file, place.line, false));
    run->end = SENTENCE;
    kill(child.process, SIGKILL);
    _exit(1);
}

/* The number of the thread that is at a place. */
static uint32_t me_at(PctPlace place) {
    if (child.is_forked) refuse_forked(place);
    if (!own_seat)
        sentence("%s can't be a step: %s", place_text(place.file, place.line, false),
                 child.runs ? "its thread was started past pct_create" : "no run is going on");
    return own_seat - 1;
}
