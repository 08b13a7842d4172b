// A Treiber stack over a fixed pool of nodes, whose pop has the ABA fault; no memory is freed.
#include <atomic>
#include <cassert>
#include <thread>
struct Node {
    std::atomic<int> next;
};
static Node pool[3];
static std::atomic<int> head{-1};
static std::atomic<int> owned[3];
static void push(int n) {
    int h = head.load();
    do { pool[n].next.store(h); } while (!head.compare_exchange_weak(h, n));
}
static int pop() {
    int h = head.load();
    while (h >= 0) {
        int next = pool[h].next.load();
        if (head.compare_exchange_weak(h, next))
            return h;
    }
    return -1;
}
static void work(int rounds) {
    for (int i = 0; i < rounds; i++) {
        int a = pop();
        if (a >= 0)
            assert(owned[a].exchange(1) == 0);
        int b = pop();
        if (b >= 0)
            assert(owned[b].exchange(1) == 0);
        if (a >= 0) {
            owned[a] = 0;
            push(a);
        }
        if (b >= 0) {
            owned[b] = 0;
            push(b);
        }
    }
}
int main() {
    for (int i = 0; i < 3; i++) push(i);
    std::thread a(work, 2), b(work, 2);
    a.join();
    b.join();
}
