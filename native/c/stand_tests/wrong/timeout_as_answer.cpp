// A timeout is taken for "nothing was done", so the work is done twice.
#include <cassert>
#include <chrono>
#include <condition_variable>
#include <mutex>
#include <thread>
static std::mutex m;
static std::condition_variable c;
static bool done;
static int times;
int main() {
    std::thread w([] {
        {
            std::lock_guard<std::mutex> l(m);
            times++;
        }
        std::lock_guard<std::mutex> l(m);
        done = true;
        c.notify_one();
    });
    {
        std::unique_lock<std::mutex> l(m);
        if (!c.wait_for(l, std::chrono::seconds(5), [] { return done; }))
            times++;
    }
    w.join();
    assert(times == 1);
}
