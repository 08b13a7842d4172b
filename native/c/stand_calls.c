/*
 * System calls that wait for what another thread of the program writes: pipes, sockets, event
 * descriptors. A read is looked at without waiting, and rests until something changed. Where nobody
 * else can go it really waits, for another process, and a second later the run is refused. All
 * descriptors have one clock, so a race that only their order hides isn't told.
 */
#include "stand.h"

#include <errno.h>
#include <fcntl.h>
#include <poll.h>
#include <sys/epoll.h>
#include <sys/eventfd.h>
#include <sys/socket.h>
#include <sys/stat.h>
#include <unistd.h>

#define OUTSIDE_WAIT 1000 /* milliseconds */

static char all_descriptors;

static bool is_shared_descriptor(int descriptor) {
    struct stat status;
    if (fstat(descriptor, &status)) return false;
    return S_ISFIFO(status.st_mode) || S_ISSOCK(status.st_mode) || (status.st_mode & S_IFMT) == 0;
}

static bool is_ready(int descriptor, short events, int wait) {
    struct pollfd one = { descriptor, events, 0 };
    return REAL(poll)(&one, 1, wait) > 0;
}

static void await(int descriptor, short events, const char *what) {
    if (!is_tested() || !is_shared_descriptor(descriptor)) return;
    step(what, NULL);
    bool does_wait = !(fcntl(descriptor, F_GETFL) & O_NONBLOCK);
    while (does_wait && !is_ready(descriptor, events, 0)) {
        rest("waits for a descriptor");
        if (is_alone() && !is_ready(descriptor, events, OUTSIDE_WAIT))
            end_run(REFUSED, "a read of descriptor %d waits for something outside of the program",
                    descriptor);
    }
    acquire(&all_descriptors);
}

static void tell_written(int descriptor, const char *what) {
    if (!is_tested() || !is_shared_descriptor(descriptor)) return;
    step(what, NULL);
    release(&all_descriptors);
}

/* After the call, so that who looks sees it. */
static ssize_t written(int descriptor, ssize_t result) {
    int number = errno;
    if (is_tested() && is_shared_descriptor(descriptor)) changed();
    errno = number;
    return result;
}

EXPORT ssize_t read(int descriptor, void *to, size_t size) {
    ENTER();
    await(descriptor, POLLIN, "read");
    return REAL(read)(descriptor, to, size);
}
EXPORT ssize_t recv(int descriptor, void *to, size_t size, int flags) {
    ENTER();
    if (!(flags & MSG_DONTWAIT)) await(descriptor, POLLIN, "recv");
    return REAL(recv)(descriptor, to, size, flags);
}
EXPORT int eventfd_read(int descriptor, eventfd_t *value) {
    ENTER();
    await(descriptor, POLLIN, "eventfd_read");
    return REAL(eventfd_read)(descriptor, value);
}
EXPORT int accept(int descriptor, struct sockaddr *address, socklen_t *length) {
    ENTER();
    await(descriptor, POLLIN, "accept");
    return REAL(accept)(descriptor, address, length);
}
EXPORT ssize_t write(int descriptor, const void *from, size_t size) {
    ENTER();
    tell_written(descriptor, "write");
    return written(descriptor, REAL(write)(descriptor, from, size));
}
EXPORT ssize_t send(int descriptor, const void *from, size_t size, int flags) {
    ENTER();
    tell_written(descriptor, "send");
    return written(descriptor, REAL(send)(descriptor, from, size, flags));
}
EXPORT int eventfd_write(int descriptor, eventfd_t value) {
    ENTER();
    tell_written(descriptor, "eventfd_write");
    return (int)written(descriptor, REAL(eventfd_write)(descriptor, value));
}

/* Another look, where the last one found nothing: false where the time has run out. */
static bool look_again(int timeout) {
    if (timeout == 0) {
        looked(0, 3);
        return false;
    }
    rest("waits for descriptors");
    if (!is_alone()) return true;
    if (timeout < 0) return true;
    pass_time((uint64_t)timeout * 1000000);
    return false;
}

EXPORT int poll(struct pollfd *list, nfds_t count, int timeout) {
    ENTER();
    if (!is_tested()) return REAL(poll)(list, count, timeout);
    step("poll", NULL);
    int found = REAL(poll)(list, count, 0);
    while (found == 0 && look_again(timeout)) {
        found = REAL(poll)(list, count, is_alone() ? OUTSIDE_WAIT : 0);
        if (found == 0 && is_alone())
            end_run(REFUSED, "a poll waits for something outside of the program");
    }
    acquire(&all_descriptors);
    return found;
}
EXPORT int epoll_wait(int descriptor, struct epoll_event *events, int most, int timeout) {
    ENTER();
    if (!is_tested()) return REAL(epoll_wait)(descriptor, events, most, timeout);
    step("epoll_wait", NULL);
    int found = REAL(epoll_wait)(descriptor, events, most, 0);
    while (found == 0 && look_again(timeout)) {
        found = REAL(epoll_wait)(descriptor, events, most, is_alone() ? OUTSIDE_WAIT : 0);
        if (found == 0 && is_alone())
            end_run(REFUSED, "an epoll_wait waits for something outside of the program");
    }
    acquire(&all_descriptors);
    return found;
}
