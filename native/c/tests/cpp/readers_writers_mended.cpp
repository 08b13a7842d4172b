// examples/readers_writers_mended.pct in C++, each step in its line. See there.
#include "pct_test.hpp"
static pct::counting_semaphore<> room{1};
static pct::mutex counting;
static pct::atomic<int> readers{0};
static pct::atomic<int> is_writing{0};

static void Writer() {
    room.acquire();
    is_writing.store(1);
    pct_step();
    is_writing.store(0);
    room.release();
}

static void Reader1() { int r0 = 0, r1 = 0;
    counting.lock();
    r0 = readers.fetch_add(1);
    if (r0 == 0) {
        room.acquire();
    }
    counting.unlock();
    r1 = is_writing.load();
    PCT_CHECK(r1 == 0);
    counting.lock();
    r0 = readers.fetch_add(-1);
    if (r0 == 1) {
        room.release();
    }
    counting.unlock();
}

static void Reader2() { int r0 = 0, r1 = 0;
    counting.lock();
    r0 = readers.fetch_add(1);
    if (r0 == 0) {
        room.acquire();
    }
    counting.unlock();
    r1 = is_writing.load();
    PCT_CHECK(r1 == 0);
    counting.lock();
    r0 = readers.fetch_add(-1);
    if (r0 == 1) {
        room.release();
    }
    counting.unlock();
}

static void reset() {
    readers = 0;
    is_writing = 0;
}

int main(int count, char **words) {
    static const char *const names[] = { "Writer", "Reader1", "Reader2" };
    static void (*const functions[])() = { Writer, Reader1, Reader2 };
    pct::name(room, "room");
    pct::name(counting, "counting");
    pct::name(readers, "readers");
    pct::name(is_writing, "is_writing");
    pct_options(count, words);
    pct_reset(reset);
    return pct_threads(3, names, functions);
}
