// examples/upgraded_read_lock_mended.pct in C++, each step in its line. See there.
#include "pct_test.hpp"
static pct::shared_mutex l;
static pct::atomic<int> entry{0};

static void Fill() { int r0 = 0;
    l.lock_shared();
    r0 = entry.load();
    l.unlock_shared();
    if (r0 == 0) {
        l.lock();
        r0 = entry.load();
        if (r0 == 0) {
            entry.store(7);
        }
        l.unlock();
    }
}

static void Preload() {
    l.lock();
    entry.store(7);
    l.unlock();
}

static void reset() {
    entry = 0;
}

int main(int count, char **words) {
    static const char *const names[] = { "Fill", "Preload" };
    static void (*const functions[])() = { Fill, Preload };
    pct::name(l, "l");
    pct::name(entry, "entry");
    pct_options(count, words);
    pct_reset(reset);
    return pct_threads(2, names, functions);
}
