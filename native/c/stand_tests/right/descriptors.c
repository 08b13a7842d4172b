/* A pipe, a pair of sockets and an event descriptor between two threads, and a poll. */
#include <assert.h>
#include <poll.h>
#include <pthread.h>
#include <sys/eventfd.h>
#include <sys/socket.h>
#include <unistd.h>

static int ends[2], sockets[2], event, published;

static void *writes(void *nothing) {
    char letter = 'x';
    published = 7;
    assert(write(ends[1], &letter, 1) == 1);
    assert(send(sockets[1], &letter, 1, 0) == 1);
    assert(eventfd_write(event, 3) == 0);
    return nothing;
}

int main(void) {
    pthread_t writer;
    char letter = 0;
    eventfd_t count = 0;
    assert(pipe(ends) == 0 && socketpair(AF_UNIX, SOCK_STREAM, 0, sockets) == 0);
    event = eventfd(0, 0);
    pthread_create(&writer, NULL, writes, NULL);
    struct pollfd wanted = { sockets[0], POLLIN, 0 };
    assert(poll(&wanted, 1, -1) == 1);
    assert(recv(sockets[0], &letter, 1, 0) == 1 && letter == 'x');
    letter = 0;
    assert(read(ends[0], &letter, 1) == 1 && letter == 'x' && published == 7);
    assert(eventfd_read(event, &count) == 0 && count == 3);
    pthread_join(writer, NULL);
    return 0;
}
