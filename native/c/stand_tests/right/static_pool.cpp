// A static's constructor starts a thread, and its destructor joins it.
#include <atomic>
#include <cassert>
#include <condition_variable>
#include <mutex>
#include <thread>
static std::mutex m;
static std::condition_variable c;
struct Pool {
    bool stop = false;
    int made = 0;
    std::thread t{[this] {
        std::unique_lock<std::mutex> l(m);
        while (!stop) c.wait(l);
        made = 1;
    }};
    ~Pool() {
        {
            std::lock_guard<std::mutex> l(m);
            stop = true;
        }
        c.notify_one();
        t.join();
        if (made != 1)
            __builtin_trap();
    }
};
static Pool pool;
int main() {
    std::lock_guard<std::mutex> l(m);
    assert(pool.made == 0);
}
