// A ticker, a poll by timed waits, and a loop until a time.
#include <cassert>
#include <chrono>
#include <condition_variable>
#include <mutex>
#include <thread>
using namespace std::chrono_literals;
static std::mutex m;
static std::condition_variable c;
static bool done;
static int ticks;
int main() {
    std::thread w([] {
        for (int i = 0; i < 3; i++) {
            std::this_thread::sleep_for(10ms);
            std::lock_guard<std::mutex> l(m);
            ticks++;
        }
        std::lock_guard<std::mutex> l(m);
        done = true;
        c.notify_one();
    });
    {
        std::unique_lock<std::mutex> l(m);
        while (!done) c.wait_for(l, 1ms);
    }
    auto end = std::chrono::steady_clock::now() + 2s;
    while (std::chrono::steady_clock::now() < end) std::this_thread::sleep_for(100ms);
    w.join();
    assert(ticks == 3);
}
