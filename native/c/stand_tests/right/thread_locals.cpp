// A thread-local's destructor takes a lock.
#include <cassert>
#include <mutex>
#include <thread>
static std::mutex m;
static int ended;
struct T {
    int used = 0;
    ~T() {
        std::lock_guard<std::mutex> l(m);
        ended++;
    }
};
static thread_local T t;
int main() {
    std::thread a([] { t.used = 1; }), b([] { t.used = 1; });
    a.join();
    b.join();
    std::lock_guard<std::mutex> l(m);
    assert(ended == 2);
}
