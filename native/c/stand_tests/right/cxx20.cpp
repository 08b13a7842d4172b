// C++20's latch, barrier, semaphore, jthread, and a wait on an atomic.
#include <atomic>
#include <barrier>
#include <cassert>
#include <latch>
#include <semaphore>
#include <thread>
#include <vector>
int main() {
    std::atomic<int> turn{0};
    std::latch go(3);
    std::barrier meet(2);
    std::counting_semaphore<4> sem(0);
    int shared = 0;
    {
        std::jthread a([&] {
            go.arrive_and_wait();
            shared++;
            turn = 1;
            turn.notify_all();
            meet.arrive_and_wait();
            sem.release();
        });
        std::jthread b([&](std::stop_token st) {
            go.arrive_and_wait();
            turn.wait(0);
            shared++;
            meet.arrive_and_wait();
            while (!st.stop_requested()) std::this_thread::yield();
        });
        go.arrive_and_wait();
        sem.acquire();
    }
    assert(shared == 2);
}
