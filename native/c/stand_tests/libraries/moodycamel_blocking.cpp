// moodycamel's blocking queue.
#include <cassert>
#include <concurrentqueue/blockingconcurrentqueue.h>
#include <thread>
int main() {
    moodycamel::BlockingConcurrentQueue<int> q(4);
    std::atomic<int> sum{0};
    auto put = [&](int from) {
        for (int i = 0; i < 2; i++) q.enqueue(from + i);
    };
    auto take = [&] {
        int v;
        for (int i = 0; i < 2; i++) {
            q.wait_dequeue(v);
            sum += v;
        }
    };
    std::thread a(put, 1), b(put, 10), c(take), d(take);
    a.join();
    b.join();
    c.join();
    d.join();
    assert(sum == 24);
}
