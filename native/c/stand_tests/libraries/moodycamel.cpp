// moodycamel's queue, two threads on each side.
#include <atomic>
#include <cassert>
#include <concurrentqueue/concurrentqueue.h>
#include <thread>
int main() {
    moodycamel::ConcurrentQueue<int> q(4);
    std::atomic<int> sum{0}, got{0};
    auto put = [&](int from) {
        for (int i = 0; i < 2; i++) q.enqueue(from + i);
    };
    auto take = [&] {
        int v;
        for (int i = 0; i < 2; i++)
            if (q.try_dequeue(v)) {
                sum += v;
                got++;
            }
    };
    std::thread a(put, 1), b(put, 10), c(take), d(take);
    a.join();
    b.join();
    c.join();
    d.join();
    int v;
    while (q.try_dequeue(v)) {
        sum += v;
        got++;
    }
    assert(got == 4 && sum == 1 + 2 + 10 + 11);
}
