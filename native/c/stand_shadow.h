/* The cells of stand_shadow.c, and the look at them that each access of memory takes. */
#ifndef PCT_STAND_SHADOW_H
#define PCT_STAND_SHADOW_H

#include "stand.h"

#define REGION_BITS 20
#define REGIONS 4096 /* a power of two */
#define CELLS 4

typedef struct Cell {
    uintptr_t pc; /* of freed memory, where it was freed */
    union {
        struct {
            uint32_t epoch;
            uint8_t thread, mask, kind, unused; /* mask: the bytes, none where the cell is empty */
        };
        uint64_t all; /* the five at once */
    };
} Cell;
typedef struct Granule {
    Cell cells[CELLS];
} Granule;

typedef struct Region {
    uintptr_t key; /* one more than the address of the megabyte */
    Granule *granules;
} Region;
extern Region regions[REGIONS];

_Static_assert(ACCESS_READ == 0 && ACCESS_WRITE == 1, "a read's cell is a write's less one");

static inline uint8_t mask_of(uintptr_t at, uint32_t size) {
    return (uint8_t)(((1U << size) - 1) << (at & 7));
}

/* Whether the thread has made this access before, and nobody has met it since: nothing is to be
 * done then. */
static inline bool is_seen(uintptr_t at, uint32_t size, unsigned kind) {
    uintptr_t key = (at >> REGION_BITS) + 1;
    const Region *region = &regions[key % REGIONS];
    if (region->key != key) return false;
    const Cell *cells = region->granules[(at & (BIT(REGION_BITS) - 1)) >> 3].cells;
    Cell it = { .epoch = self.epoch,
                .thread = (uint8_t)self.seat,
                .mask = mask_of(at, size),
                .kind = ACCESS_WRITE };
    uint64_t write = it.all, same = write - (kind == ACCESS_READ ? BIT(48) : 0);
    for (int i = 0; i < CELLS; i++)
        if (cells[i].all == write || cells[i].all == same) return true;
    return false;
}

#endif
