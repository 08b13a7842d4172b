/* What stands at the address of a semaphore, a barrier, a once.. in this run: by a table of
 * addresses. */
#include "stand.h"

#define MOST_OBJECTS 16384 /* a power of two */
static Object objects[MOST_OBJECTS];
static uint32_t object_count;

Object *object_at(volatile void *at) {
    uint32_t slot = (uint32_t)(((uintptr_t)at >> 2) * 2654435761U) % MOST_OBJECTS;
    while (objects[slot].at && objects[slot].at != at) slot = (slot + 1) % MOST_OBJECTS;
    if (!objects[slot].at && ++object_count == MOST_OBJECTS)
        end_run(REFUSED, "more than %d semaphores, barriers and the like", MOST_OBJECTS - 1);
    objects[slot].at = at;
    return &objects[slot];
}
