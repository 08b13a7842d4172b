// `if` in place of `while`: a thread that comes in between takes the item.
#include <cassert>
#include <condition_variable>
#include <mutex>
#include <thread>
static std::mutex m;
static std::condition_variable c;
static int items;
static void take() {
    std::unique_lock<std::mutex> l(m);
    if (items == 0)
        c.wait(l);
    assert(items > 0);
    items--;
}
static void put() {
    std::lock_guard<std::mutex> l(m);
    items++;
    c.notify_one();
}
int main() {
    std::thread a(take), b(take), p(put), q(put);
    a.join();
    b.join();
    p.join();
    q.join();
}
