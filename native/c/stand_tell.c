/* Writes a run for pct-try, a line for each step; addresses as they stand, which pct-try makes
 * lines of. */
#include "stand_process.h"

#include <inttypes.h>
#include <link.h>

static void write_frames(FILE *to, const uintptr_t *frames) {
    for (size_t i = 0; i < MOST_FRAMES; i++) fprintf(to, "%c%" PRIxPTR, i ? ',' : ' ', frames[i]);
}

/* A wait for a thread's end is told as one more than its number, where no object lies. */
static uintptr_t told_address(uintptr_t at) {
    uintptr_t first = (uintptr_t)seats;
    return at >= first && at < first + sizeof seats ? (at - first) / sizeof *seats + 1 : at;
}

static void write_step(FILE *to, const char *word, const Step *step) {
    fprintf(to, "%s %u %u %u %d %" PRIxPTR " %" PRIx64, word, step->thread, step->kind,
            step->object, step->answer, told_address(step->at), step->value);
    write_frames(to, step->frames);
    fprintf(to, " %s\n", step->what);
}

static void write_access(FILE *to, const Access *access) {
    fprintf(to, "access %u %u %u %u %" PRIxPTR, access->thread, access->size, access->is_write,
            access->is_atomic, access->at);
    write_frames(to, access->frames);
    for (size_t i = 0; i < 4; i++) fprintf(to, "%c%" PRIxPTR, i ? ',' : ' ', access->held[i]);
    fputc('\n', to);
}

void write_run(FILE *to) {
    fprintf(to, "told %s\n", shared->told);
    for (uint32_t i = 0; i < PCT_MOST_POINTS; i++)
        if (shared->points[i]) fprintf(to, "point %u\n", shared->points[i]);
    for (uint32_t i = 0; i < shared->accesses_told; i++) write_access(to, &shared->accesses[i]);
    for (uint32_t t = 0; t < shared->seat_count; t++) {
        fprintf(to, "thread %u %" PRIxPTR "\n", t, shared->functions[t]);
        if (shared->waiting[t].kind != PCT_ASK_NONE) write_step(to, "waiting", &shared->waiting[t]);
    }
    for (uint32_t i = 0; i < MOST_LEARNED; i++)
        if (shared->learned[i]) fprintf(to, "learned %" PRIxPTR "\n", shared->learned[i]);
    for (uint32_t i = 0; i < shared->step_count; i++) write_step(to, "step", &shared->steps[i]);
}

static int write_module(struct dl_phdr_info *info, size_t size, void *data) {
    (void)size;
    uintptr_t end = 0;
    for (int i = 0; i < info->dlpi_phnum; i++) {
        const ElfW(Phdr) *part = &info->dlpi_phdr[i];
        if (part->p_type == PT_LOAD && part->p_vaddr + part->p_memsz > end)
            end = part->p_vaddr + part->p_memsz;
    }
    fprintf((FILE *)data, "module %" PRIxPTR " %" PRIxPTR " %s\n", (uintptr_t)info->dlpi_addr,
            (uintptr_t)info->dlpi_addr + end, info->dlpi_name);
    return 0;
}

void write_modules(FILE *to) { dl_iterate_phdr(write_module, to); }
