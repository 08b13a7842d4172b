// Two threads each load an atomic counter and store one more.
#include <atomic>
#include <cassert>
#include <thread>
static std::atomic<int> counter{0};
static void add() {
    int seen = counter.load();
    counter.store(seen + 1);
}
int main() {
    std::thread a(add), b(add);
    a.join();
    b.join();
    assert(counter == 2);
}
