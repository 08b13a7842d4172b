/*
 * Who touched which plain memory last. For each eight bytes there are four cells, each an access of
 * some of them: by whom, where in the code, and when by that thread's clock. Two accesses race
 * where at least one writes, at least one isn't atomic, and the earlier one's time isn't in the
 * later one's clock.
 *
 * Cells lie in regions of a megabyte of the program's memory, which are made when they are first
 * touched.
 */
#include "stand_shadow.h"

#include <string.h>
#include <sys/mman.h>

Region regions[REGIONS];

static void *reserve(size_t bytes) {
    void *at = mmap(NULL, bytes, PROT_READ | PROT_WRITE,
                    MAP_PRIVATE | MAP_ANONYMOUS | MAP_NORESERVE, -1, 0);
    return at == MAP_FAILED ? NULL : at;
}

static Granule *new_region(Region *region, uintptr_t key) {
    region->granules = reserve(sizeof(Granule) << (REGION_BITS - 3));
    if (!region->granules) end_run(REFUSED, "no memory for the record of accesses");
    region->key = key;
    return region->granules;
}

static Granule *granule_at(uintptr_t at) {
    uintptr_t key = (at >> REGION_BITS) + 1;
    uintptr_t place = (at & (BIT(REGION_BITS) - 1)) >> 3;
    for (uintptr_t i = key; i < key + REGIONS; i++) {
        Region *region = &regions[i % REGIONS];
        if (LIKELY(region->key == key)) return &region->granules[place];
        if (!region->key) return &new_region(region, key)[place];
    }
    end_run(REFUSED, "more than %d megabytes of memory are touched", REGIONS);
}

/* --- Places of accesses that are steps --- */

static uintptr_t *learned_slot(uintptr_t pc) {
    uint32_t slot = (uint32_t)(pc * 2654435761U) % MOST_LEARNED;
    while (shared->learned[slot] && shared->learned[slot] != pc) slot = (slot + 1) % MOST_LEARNED;
    return &shared->learned[slot];
}

bool is_learned(uintptr_t pc) { return *learned_slot(pc) == pc; }

static void learn(uintptr_t pc) {
    if (shared->plan.is_frozen || is_learned(pc) || shared->learned_count >= MOST_LEARNED / 2)
        return;
    *learned_slot(pc) = pc;
    shared->learned_count++;
}

static bool is_ignored(uintptr_t pc) {
    for (uint32_t i = 0; i < shared->ignored_count; i++)
        if (shared->ignored[i] == pc) return true;
    return false;
}

/* --- What is told of two accesses --- */

static void tell_access(uint32_t place, uint32_t thread, const Cell *cell, uintptr_t at) {
    Access *access = &shared->accesses[place];
    *access = (Access){ .thread = thread,
                        .is_write = cell->kind & ACCESS_WRITE,
                        .at = at,
                        .is_atomic = (cell->kind & ACCESS_ATOMIC) != 0,
                        .size = (uint32_t)__builtin_popcount(cell->mask) };
    if (place == 1) {
        self.pc = cell->pc;
        keep_frames(access->frames);
        locks_held(thread, access->held, 4);
    } else {
        access->frames[0] = cell->pc;
    }
    shared->accesses_told = place + 1;
}

static void end_by_race(const Cell *earlier, const Cell *later, uintptr_t at) {
    tell_access(0, earlier->thread, earlier, at);
    tell_access(1, later->thread, later, at);
    end_run(RACE, "two accesses that nothing orders");
}

static void end_by_freed(const Cell *freed, const Cell *use, uintptr_t at) {
    tell_access(0, freed->thread, freed, at);
    tell_access(1, use->thread, use, at);
    end_run(USE_AFTER_FREE, "memory is used after it was freed");
}

/* --- An access --- */

/* Of memory of the thread's own stack, which a thread had before that has ended. */
static bool is_of_ended(const Cell *cell, uintptr_t at) {
    const Seat *s = mine(), *other = &seats[cell->thread];
    return at >= s->stack_low && at < s->stack_high &&
           (!other->is_live || cell->epoch < other->born);
}

/* Whether the cell's access may race with the new one, were they not ordered. */
static bool do_conflict(const Cell *cell, const Cell *new) {
    return cell->thread != new->thread && (cell->mask & new->mask) &&
           ((cell->kind | new->kind) & ACCESS_WRITE) && !(cell->kind & new->kind &ACCESS_ATOMIC);
}

static void meet(Cell *cell, const Cell *new, uintptr_t at, bool is_ordered) {
    uint32_t mode = shared->plan.plain;
    if (is_of_ended(cell, at)) {
        cell->mask = 0;
        return;
    }
    if (mode == PLAIN_STEPS || (mode == PLAIN_RACY && !is_ordered)) {
        learn(new->pc);
        learn(cell->pc);
    }
    if (!is_ordered && mode == PLAIN_RACES && !is_ignored(new->pc) && !is_ignored(cell->pc))
        end_by_race(cell, new, at);
}

static bool covers(const Cell *cell, const Cell *new) {
    return cell->thread == new->thread && cell->mask == new->mask &&
           (cell->kind & ACCESS_WRITE) <= (new->kind &ACCESS_WRITE) &&
           (cell->kind & ACCESS_ATOMIC) >= (new->kind &ACCESS_ATOMIC);
}

static void put_cell(Granule *granule, const Cell *new, uintptr_t at) {
    const Clock *clock = &mine()->clock;
    Cell *empty = NULL, *ordered = NULL, *same = NULL;
    for (Cell *cell = granule->cells; cell < granule->cells + CELLS; cell++) {
        if (cell->kind & ACCESS_FREED) end_by_freed(cell, new, at);
        bool is_ordered = cell->thread == new->thread || cell->epoch <= clock->at[cell->thread];
        if (cell->mask && do_conflict(cell, new)) meet(cell, new, at, is_ordered);
        if (!cell->mask) empty = empty ? empty : cell;
        else if (covers(cell, new)) same = cell;
        else if (is_ordered) ordered = cell;
    }
    Cell *to = same      ? same
               : empty   ? empty
               : ordered ? ordered
                         : &granule->cells[shared->plain_accesses % CELLS];
    *to = *new;
}

void touch(uintptr_t at, size_t size, unsigned kind, uintptr_t pc) {
    Cell new = {
        .pc = pc, .epoch = self.epoch, .thread = (uint8_t)self.seat, .kind = (uint8_t)kind
    };
    for (size_t done = 0; done < size;) {
        uint32_t part = 8 - (uint32_t)((at + done) & 7);
        if (part > size - done) part = (uint32_t)(size - done);
        new.mask = mask_of(at + done, part);
        put_cell(granule_at(at + done), &new, at + done);
        done += part;
    }
}

bool is_freed(uintptr_t at) { return granule_at(at)->cells[0].kind & ACCESS_FREED; }

void mark_freed(uintptr_t at, size_t size, uintptr_t pc) {
    for (uintptr_t i = at; i < at + size; i += 8)
        *granule_at(i) = (Granule){ .cells[0] = { .pc = pc,
                                                  .thread = (uint8_t)self.seat,
                                                  .mask = 255,
                                                  .kind = ACCESS_FREED } };
}

void forget_memory(uintptr_t at, size_t size) {
    for (uintptr_t i = at & ~(uintptr_t)7; i < at + size; i += 8)
        memset(granule_at(i), 0, sizeof(Granule));
}
