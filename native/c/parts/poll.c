/* Part of pct_test.c: descriptors between the threads of a test. Each call is a step that changes
   `calls`, so that those who wait look again after it; the system's call follows at once. */

ssize_t pct_read_at(int file, void *to, size_t bytes, PctPlace place);
ssize_t pct_write_at(int file, const void *from, size_t bytes, PctPlace place);
int pct_close_at(int file, PctPlace place);
int pct_poll_at(struct pollfd *files, nfds_t count, int limit, PctPlace place);

/* A step that others see as a change. */
static void step_on_files(PctPlace place) {
    static uint64_t calls;
    place.name = "files";
    pct_access(PCT_ADD, &calls, 8 | PCT_UNSIGNED, 1, 0, place);
}

/* Waits by steps until one of the files is ready: how many are. A limit that isn't negative is over
   after some looks. */
static int await_files(struct pollfd *files, nfds_t count, int limit, PctPlace place) {
    for (int looks = 0;; looks++) {
        int ready = poll(files, count, 0);
        if (ready != 0 || limit == 0 || (limit > 0 && looks == MOST_SLEEPS)) return ready;
        if (limit < 0)
            pct_yield_at(place);
        else
            pct_step_at(place);
    }
}

/* A step, before which the file is ready for what is asked. */
static void be_ready(int file, short events, PctPlace place) {
    struct pollfd one = { .fd = file, .events = events };
    step_on_files(place);
    if (fcntl(file, F_GETFL) & O_NONBLOCK) return;
    await_files(&one, 1, -1, place);
}

ssize_t pct_read_at(int file, void *to, size_t bytes, PctPlace place) {
    be_ready(file, POLLIN, place);
    return read(file, to, bytes);
}

ssize_t pct_write_at(int file, const void *from, size_t bytes, PctPlace place) {
    be_ready(file, POLLOUT, place);
    return write(file, from, bytes);
}

int pct_close_at(int file, PctPlace place) {
    step_on_files(place);
    return close(file);
}

int pct_poll_at(struct pollfd *files, nfds_t count, int limit, PctPlace place) {
    step_on_files(place);
    return await_files(files, count, limit, place);
}
