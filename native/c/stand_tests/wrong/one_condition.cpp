// One condition for both sides of a bounded queue, and notify_one: the wrong side is woken, and all sleep.
#include <condition_variable>
#include <deque>
#include <mutex>
#include <thread>
#include <vector>
class Queue {
    std::mutex m;
    std::condition_variable changed;
    std::deque<int> items;
    const size_t most;

  public:
    explicit Queue(size_t n) : most(n) {
    }
    void put(int i) {
        std::unique_lock<std::mutex> l(m);
        changed.wait(l, [&] { return items.size() < most; });
        items.push_back(i);
        changed.notify_one();
    }
    int take() {
        std::unique_lock<std::mutex> l(m);
        changed.wait(l, [&] { return !items.empty(); });
        int i = items.front();
        items.pop_front();
        changed.notify_one();
        return i;
    }
};
int main() {
    Queue q(1);
    std::vector<std::thread> all;
    for (int t = 0; t < 2; t++)
        all.emplace_back([&] {
            for (int i = 0; i < 2; i++) q.put(i);
        });
    for (int t = 0; t < 2; t++)
        all.emplace_back([&] {
            for (int i = 0; i < 2; i++) q.take();
        });
    for (auto &t : all) t.join();
}
