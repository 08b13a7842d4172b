// A std::call_once and a static whose first makers throw: another thread makes them.
#include <atomic>
#include <cassert>
#include <mutex>
#include <stdexcept>
#include <thread>

static std::once_flag once;
static std::atomic<int> calls{0}, makers{0};

struct Made {
    Made() {
        if (makers++ == 0) throw std::runtime_error("the first one");
    }
};

static void init() {
    if (calls++ == 0) throw std::runtime_error("the first one");
}

static void use() {
    for (int i = 0; i < 2; i++) {
        try {
            std::call_once(once, init);
            static Made made;
        } catch (const std::runtime_error &) {
        }
    }
}

int main() {
    std::thread a(use), b(use);
    a.join();
    b.join();
    assert(calls == 2 && makers == 2);
}
