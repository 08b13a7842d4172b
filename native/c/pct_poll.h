/*
 * Pipes, eventfd and poll between the threads of a test under the PCT scheduler: a file that uses
 * them is compiled with
 *
 *     cc -include pct_poll.h -c server.c
 *
 * The descriptors are the system's. Each call on one is a step, and one that would block waits for
 * other threads' steps; whoever is outside of the test isn't waited for. A poll with a limit ends
 * by it only where nobody else can go on.
 */
#ifndef PCT_POLL_H
#define PCT_POLL_H

#include <poll.h>
#include <sys/eventfd.h>
#include <sys/types.h>
#include <unistd.h>

#include "pct_test.h"

#ifdef __cplusplus
extern "C" {
#endif
ssize_t pct_read_at(int file, void *to, size_t bytes, PctPlace place);
ssize_t pct_write_at(int file, const void *from, size_t bytes, PctPlace place);
int pct_close_at(int file, PctPlace place);
int pct_poll_at(struct pollfd *files, nfds_t count, int limit, PctPlace place);
#ifdef __cplusplus
}
#endif

#define read(file, to, bytes) pct_read_at((file), (to), (bytes), PCT_OF(file))
#define write(file, from, bytes) pct_write_at((file), (from), (bytes), PCT_OF(file))
#define close(file) pct_close_at((file), PCT_OF(file))
#define poll(files, count, limit) pct_poll_at((files), (count), (limit), PCT_OF(files))
#define eventfd_read(file, value) \
    (pct_read_at((file), (value), sizeof(eventfd_t), PCT_OF(file)) == sizeof(eventfd_t) ? 0 : -1)
#define eventfd_write(file, value) \
    (pct_write_at((file), &(eventfd_t){ (value) }, sizeof(eventfd_t), PCT_OF(file)) == \
             sizeof(eventfd_t) \
         ? 0 \
         : -1)

#endif
