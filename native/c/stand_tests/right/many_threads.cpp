// A hundred threads, ten at a time.
#include <atomic>
#include <cassert>
#include <thread>
#include <vector>
int main() {
    std::atomic<int> n{0};
    for (int r = 0; r < 10; r++) {
        std::vector<std::thread> t;
        for (int i = 0; i < 10; i++) t.emplace_back([&] { n++; });
        for (auto &x : t) x.join();
    }
    assert(n == 100);
}
