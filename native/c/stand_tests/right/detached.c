/* main ends while a detached thread goes on. */
#include <pthread.h>
#include <stdatomic.h>
#include <stdlib.h>
static atomic_int x;
static void *work(void *p) {
    atomic_fetch_add(&x, 1);
    atomic_fetch_add(&x, 1);
    return p;
}
int main(void) {
    pthread_t t;
    pthread_create(&t, 0, work, 0);
    pthread_detach(t);
    return 0;
}
