// boost::lockfree's queue, or with STACK its stack.
#include <atomic>
#include <boost/lockfree/queue.hpp>
#include <boost/lockfree/stack.hpp>
#include <cassert>
#include <thread>
template <class Q> void run(Q &q) {
    std::atomic<int> sum{0}, got{0};
    auto put = [&](int from) {
        for (int i = 0; i < 2; i++) q.push(from + i);
    };
    auto take = [&] {
        int v;
        for (int i = 0; i < 2; i++)
            if (q.pop(v)) {
                sum += v;
                got++;
            }
    };
    std::thread a(put, 1), b(put, 10), c(take), d(take);
    a.join();
    b.join();
    c.join();
    d.join();
    int v;
    while (q.pop(v)) {
        sum += v;
        got++;
    }
    assert(got == 4 && sum == 24);
}
int main() {
#ifdef STACK
    boost::lockfree::stack<int> s(8);
    run(s);
#else
    boost::lockfree::queue<int> q(8);
    run(q);
#endif
}
