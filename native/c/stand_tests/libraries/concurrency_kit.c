/* Concurrency Kit's ticket lock and ring, by the compiler's builtins. */
#define CK_USE_CC_BUILTINS 1
#include <assert.h>
#include <ck_ring.h>
#include <ck_spinlock.h>
#include <ck_stack.h>
#include <pthread.h>
static ck_spinlock_ticket_t l = CK_SPINLOCK_TICKET_INITIALIZER;
static int n;
static ck_ring_t ring;
static ck_ring_buffer_t buf[8];
static int items[4];
static int got;
static void *work(void *p) {
    for (int i = 0; i < 2; i++) {
        ck_spinlock_ticket_lock(&l);
        n++;
        ck_spinlock_ticket_unlock(&l);
    }
    return p;
}
static void *put(void *p) {
    for (int i = 0; i < 2; i++) {
        items[i] = i + 1;
        ck_ring_enqueue_spsc(&ring, buf, &items[i]);
    }
    return p;
}
static void *take(void *p) {
    void *x;
    for (int i = 0; i < 3; i++)
        if (ck_ring_dequeue_spsc(&ring, buf, &x))
            got += *(int *)x;
    return p;
}
int main(void) {
    pthread_t a, b, c, d;
    ck_ring_init(&ring, 8);
    pthread_create(&a, 0, work, 0);
    pthread_create(&b, 0, work, 0);
    pthread_create(&c, 0, put, 0);
    pthread_create(&d, 0, take, 0);
    pthread_join(a, 0);
    pthread_join(b, 0);
    pthread_join(c, 0);
    pthread_join(d, 0);
    void *x;
    while (ck_ring_dequeue_spsc(&ring, buf, &x)) got += *(int *)x;
    assert(n == 4);
    assert(got == 3);
    return 0;
}
