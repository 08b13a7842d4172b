// A file that knows nothing of pct: compiled with -include pct_poll.h and -include pct_pthread.h.
#include <poll.h>
#include <pthread.h>
#include <string.h>
#include <sys/eventfd.h>
#include <unistd.h>

static int ends[2], event;

static void *serve(void *nothing) {
    struct pollfd files[2] = { { .fd = ends[0], .events = POLLIN },
                               { .fd = event, .events = POLLIN } };
    int bytes = 0, is_told = 0;
    while (!is_told || bytes < 6) {
        char words[4];
        eventfd_t value;
        if (poll(files, 2, -1) <= 0) return NULL;
        if (files[0].revents & POLLIN) bytes += (int)read(ends[0], words, sizeof words);
        if (files[1].revents & POLLIN) is_told = eventfd_read(event, &value) == 0 && value == 2;
    }
    struct pollfd none = { .fd = event, .events = POLLIN };
    return poll(&none, 1, 50) == 0 ? nothing : NULL;
}

/* What a test calls: whether all was read, and nothing more came. */
int serves_all(void);
int serves_all(void) {
    pthread_t server;
    void *value = NULL;
    if (pipe(ends) != 0) return 0;
    event = eventfd(0, 0);
    pthread_create(&server, NULL, serve, &ends);
    write(ends[1], "abc", 3);
    eventfd_write(event, 2);
    write(ends[1], "def", 3);
    pthread_join(server, &value);
    close(ends[0]);
    close(ends[1]);
    close(event);
    return value == &ends;
}
