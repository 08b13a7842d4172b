// Memory that comes again is new: from malloc, on a stack, and where its one thread writes it plainly.
#include "pct_test.h"
#include <stdlib.h>
#include <string.h>

typedef struct Node {
    int count;
    struct Node *next;
} Node;

// What free leaves in a block is another value than that of its last step.
static void use_block(int first) {
    Node *node = malloc(sizeof *node);
    node->count = first;
    node->next = NULL;
    PCT_CHECK(pct_add(&node->count, 1) == first);
    PCT_CHECK(pct_load(&node->next) == NULL);
    pct_store(&node->next, node);
    free(node);
}

static void *use_blocks(void *nothing) {
    for (int i = 0; i < 3; i++)
        use_block(10 * i);
    return nothing;
}

// No other thread comes to this one between its plain writes.
static void use_again(void) {
    Node node;
    for (int i = 0; i < 3; i++) {
        memset(&node, 0, sizeof node);
        PCT_CHECK(pct_add(&node.count, 5) == 0);
        pct_store(&node.next, &node);
    }
}

static void *use_stack(void *nothing) {
    int local = 7;
    PCT_CHECK(pct_add(&local, 1) == 7);
    return nothing;
}

// A thread that gets the stack of one that has ended.
static void use_stacks(void) {
    for (int i = 0; i < 2; i++) {
        pct_thread_t thread;
        pct_create(&thread, NULL, use_stack, NULL);
        pct_join(thread, NULL);
    }
}

static void test(void) {
    pct_thread_t a, b;
    pct_create(&a, NULL, use_blocks, NULL);
    pct_create(&b, NULL, use_blocks, NULL);
    use_again();
    pct_join(a, NULL);
    pct_join(b, NULL);
    use_stacks();
    int *grown = malloc(sizeof *grown);
    pct_store(grown, 1);
    grown = realloc(grown, 100000);
    *grown = 3;
    PCT_CHECK(pct_load(grown) == 3);
    free(grown);
}

int main(int count, char **words) {
    pct_options(count, words);
    return pct_check(test);
}
