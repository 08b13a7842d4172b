// A thousand locks, of which few are held at once.
#include <cassert>
#include <mutex>
#include <thread>
#include <vector>
static std::mutex locks[1000];
static int v[1000];
int main() {
    auto w = [] {
        for (int i = 0; i < 1000; i++) {
            std::lock_guard<std::mutex> l(locks[i]);
            v[i]++;
        }
    };
    std::thread a(w), b(w);
    a.join();
    b.join();
    for (int x : v) assert(x == 2);
}
