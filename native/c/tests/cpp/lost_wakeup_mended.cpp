// examples/lost_wakeup_mended.pct in C++, each step in its line. See there.
#include "pct_test.hpp"
static pct::atomic<int> ready{0};
static pct::mutex m;
static pct::condition_variable is_ready;

static void Waiter() { int r0 = 0;
    pct::unique_lock lock(m);
    r0 = ready.load();
    while (r0 == 0) {
        is_ready.wait(lock);
        r0 = ready.load();
    }
    lock.unlock();
}

static void Setter() {
    m.lock();
    ready.store(1);
    is_ready.notify_one();
    m.unlock();
}

static void reset() {
    ready = 0;
}

int main(int count, char **words) {
    static const char *const names[] = { "Waiter", "Setter" };
    static void (*const functions[])() = { Waiter, Setter };
    pct::name(ready, "ready");
    pct::name(m, "m");
    pct::name(is_ready, "is_ready");
    pct_options(count, words);
    pct_reset(reset);
    return pct_threads(2, names, functions);
}
