/* Part of pct_test.c: accesses of memory. */

/* The value of a pointer in traces: 0 for NULL, and else the how-manieth the run has met. */
static int64_t code_of(int64_t value, unsigned form) {
    void *at = (void *)(intptr_t)value;
    uint32_t place = 0;
    if (!(form & PCT_POINTER) || !at) return value;
    while (place < run->pointer_count && pointers[place] != at) place++;
    if (place == MOST_POINTERS) sentence("a run has at most %d values of pointers", MOST_POINTERS);
    if (place == run->pointer_count) pointers[run->pointer_count++] = at;
    return place + 1;
}

static int64_t normal(int64_t value, unsigned form) {
    unsigned shift = 64 - 8 * (form & 15);
    uint64_t high = (uint64_t)value << shift;
    bool is_signed = !(form & (PCT_UNSIGNED | PCT_POINTER));
    return is_signed ? (int64_t)high >> shift : (int64_t)(high >> shift);
}

static int64_t changed_by(const Late *late) {
    switch (late->access) {
    case PCT_LOAD: return late->old;
    case PCT_ADD: return normal((int64_t)((uint64_t)late->old + (uint64_t)late->x), late->form);
    case PCT_CAS: return late->old == late->x ? late->y : late->old;
    case PCT_AND: return late->old & late->x;
    case PCT_OR: return late->old | late->x;
    case PCT_XOR: return late->old ^ late->x;
    default: return late->x;
    }
}

static void read_memory(Late *late) {
    late->old = late->new = 0;
    late->is_forbidden = is_forbidden(late->at, late->form & 15);
    if (late->is_forbidden) return;
    memcpy(&late->old, late->at, late->form & 15);
    late->old = normal(late->old, late->form);
    late->new = changed_by(late);
}

static void write_memory(const Late *late) {
    if (late->new != late->old && !late->is_forbidden)
        memcpy(late->at, &late->new, late->form & 15);
}

static bool is_access(const Late *late) {
    return late->access != PCT_PLAIN && late->access != PCT_WAKE;
}

/* Who has slept longest at a futex, or NOBODY. */
static uint32_t sleeper_at(const volatile void *at) {
    uint32_t longest = NOBODY;
    for (uint32_t i = 0; i < run->threads; i++)
        if (run->seats[i].sleeps_at == at &&
            (longest == NOBODY || run->seats[i].sleeps_since < run->seats[longest].sleeps_since))
            longest = i;
    return longest;
}

/* Those whom a wake at a futex wakes: a bit for each. */
static uint64_t wake_sleepers(const Late *late) {
    uint64_t woken = 0;
    for (int64_t left = late->x; left > 0 && sleeper_at(late->at) != NOBODY; left--) {
        uint32_t sleeper = sleeper_at(late->at);
        woken |= BIT(sleeper);
        run->seats[sleeper].sleeps_at = NULL;
    }
    return woken;
}

/* Makes what a thread asks of memory, by what stands there. For want of a variable that stays a
   step that touches nothing. */
static void look(Late *late) {
    PctAsk *ask = &late->ask;
    uint32_t form = late->form;
    int64_t sum;
    if (late->access == PCT_WAKE) {
        uint32_t sleeper = late->x > 0 ? sleeper_at(late->at) : NOBODY;
        ask->kind = sleeper == NOBODY ? PCT_ASK_YIELD : PCT_ASK_UP;
        ask->a = sleeper == NOBODY ? 0 : run->seats[sleeper].semaphore - 1;
    }
    if (!is_access(late)) return;
    read_memory(late);
    if (late->is_forbidden) *ask = (PctAsk)PCT_ASK(PCT_ASK_YIELD, 0, 0, 0, 0);
    if (ask->kind == PCT_ASK_YIELD) return;
    bool is_sum = late->access == PCT_ADD && !(form & PCT_POINTER) &&
                  !__builtin_add_overflow(late->old, late->x, &sum) && sum == late->new;
    if (late->access == PCT_LOAD) return;
    if (is_sum) {
        *ask = (PctAsk)PCT_ASK(PCT_ASK_ADD, ask->a, 0, late->x, 0);
        return;
    }
    bool is_store = late->access == PCT_STORE, is_cas = late->access == PCT_CAS;
    int64_t from = code_of(is_store ? late->new : is_cas ? late->x : late->old, form);
    int64_t to = is_store ? 0 : code_of(is_cas ? late->y : late->new, form);
    *ask = (PctAsk)PCT_ASK(is_store ? PCT_ASK_WRITE : PCT_ASK_CAS, ask->a, 0, from, to);
}

/* Looks once more as the step is taken: memory has to be as the last step left it and not be freed,
   else the run fails. */
static void look_again(uint32_t thread) {
    Late *late = &run->seats[thread].late;
    uint32_t variable = late->ask.a, step = run->variables[variable % MOST].step;
    char before[48] = "before the step";
    look(late);
    if (!is_access(late) || late->ask.kind == PCT_ASK_YIELD) return;
    if (!late->is_freed && late->old == run->variables[variable].left) return;
    if (step) snprintf(before, sizeof before, "between the steps %u and", step);
    snprintf(run->told, sizeof run->told, "%s was %s %s %u, %s, %s",
             run->names[PCT_VARIABLES][variable],
             late->is_freed ? "freed" : "changed without pct_store", before, run->steps + 1,
             who(thread), line_text(late->line));
    run->baton = thread;
    leave(DIED);
}

/* The step of an access on the memory itself, after its answer; whether it changed something. */
static bool perform(uint32_t thread, const Late *late, int64_t answer) {
    uint32_t kind = late->ask.kind, variable = late->ask.a;
    int64_t wanted = code_of(late->old, late->form);
    write_memory(late);
    if (kind == PCT_ASK_YIELD) return late->new != late->old;
    if (kind == PCT_ASK_CAS) wanted = late->access != PCT_CAS || late->old == late->x;
    if (kind != PCT_ASK_WRITE && answer != wanted)
        sentence("a fault of the layer: step %u and the memory of %s differ", run->steps,
                 run->names[PCT_VARIABLES][variable]);
    run->now[PCT_VARIABLES][variable] = code_of(late->new, late->form);
    run->variables[variable].step = run->steps;
    run->variables[variable].touched |= BIT(thread);
    run->variables[variable].left = late->new;
    return late->new != late->old;
}
