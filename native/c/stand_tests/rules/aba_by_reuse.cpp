// A Treiber stack that frees its nodes: it uses freed memory; where memory is given again, its pop has the ABA fault.
#include <atomic>
#include <cassert>
#include <thread>

struct Node {
    int value;
    std::atomic<Node *> next;
};
static std::atomic<Node *> head;
static std::atomic<int> taken[16];

static void push(int value) {
    Node *node = new Node{ value, {} };
    Node *old = head.load();
    do node->next.store(old);
    while (!head.compare_exchange_strong(old, node));
}

static Node *take() {
    Node *old = head.load();
    while (old) {
        Node *next = old->next.load();
        if (head.compare_exchange_strong(old, next)) {
            assert(taken[old->value].exchange(1) == 0);
            return old;
        }
    }
    return nullptr;
}

int main() {
    for (int i = 0; i < 3; i++) push(i);
    std::thread one([] { delete take(); });
    std::thread other([] {
        Node *first = take(), *second = take();
        delete second;
        delete first;
        push(3); // where the first one stood
    });
    one.join();
    other.join();
    while (Node *node = take()) delete node;
}
