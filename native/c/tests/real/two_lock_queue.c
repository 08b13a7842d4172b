// The two-lock queue of Maged Michael and Michael Scott, *Simple, Fast, and Practical Non-Blocking
// and Blocking Concurrent Queue Algorithms*, figure 2: one mutex for the head, one for the tail,
// and a node before the first one. MISTAKE is 0 for the queue as it is; 1: the tail isn't locked;
// 2: a node is linked before its value is there; 3: the value is read once the head is unlocked,
// when another taker may have given the node back.
#include "pct_test.h"
#include <string.h>

#ifndef MISTAKE
#define MISTAKE 0
#endif

typedef struct Node {
    struct Node *next;
    int value;
} Node;

static struct {
    Node *head, *tail;
    pct_mutex_t head_lock, tail_lock;
} queue;
static Node nodes[8];
static int fresh, taken;

static void put(int value) {
    Node *node = &nodes[fresh++];
    if (MISTAKE != 2) pct_store(&node->value, value);
    if (MISTAKE != 1) pct_mutex_lock(&queue.tail_lock);
    Node *last = pct_load(&queue.tail);
    pct_store(&last->next, node);
    pct_store(&queue.tail, node);
    if (MISTAKE != 1) pct_mutex_unlock(&queue.tail_lock);
    if (MISTAKE == 2) pct_store(&node->value, value);
}

// The first value, or 0 where the queue is empty.
static int take(void) {
    pct_mutex_lock(&queue.head_lock);
    Node *before = pct_load(&queue.head), *first = pct_load(&before->next);
    if (!first) {
        pct_mutex_unlock(&queue.head_lock);
        return 0;
    }
    int value = MISTAKE != 3 ? pct_load(&first->value) : 0;
    pct_store(&queue.head, first);
    pct_mutex_unlock(&queue.head_lock);
    if (MISTAKE == 3) value = pct_load(&first->value);
    pct_store(&before->value, -1); // it is given back
    return value;
}

static void take_some(int most) {
    for (int i = 0; i < most; i++) {
        int value = take();
        PCT_CHECK(value >= 0 && value <= 2);
        pct_add(&taken, value);
    }
}

static void *putter(void *value) {
    put((int)(intptr_t)value);
    return NULL;
}

static void *taker(void *nothing) {
    take_some(2);
    return nothing;
}

// What two threads put and two take, and what is left: it is 3.
static void test(void) {
    pct_thread_t threads[4];
    queue.head = queue.tail = &nodes[fresh++];
    pct_mutex_init(&queue.head_lock, PCT_MUTEX_NORMAL);
    pct_mutex_init(&queue.tail_lock, PCT_MUTEX_NORMAL);
    for (intptr_t i = 0; i < 2; i++) {
        pct_create(&threads[i], NULL, putter, (void *)(i + 1));
        pct_create(&threads[2 + i], NULL, taker, NULL);
    }
    for (int i = 0; i < 4; i++) pct_join(threads[i], NULL);
    take_some(2);
    PCT_CHECK(pct_load(&taken) == 3);
}

static void reset(void) {
    fresh = taken = 0;
    memset(nodes, 0, sizeof nodes);
}

int main(int count, char **words) {
    pct_options(count, words);
    pct_reset(reset);
    return pct_check(test);
}
