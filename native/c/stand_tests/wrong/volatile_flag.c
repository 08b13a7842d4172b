/* A thread spins on a volatile flag. */
#include <pthread.h>
static volatile int done;
static void *work(void *p) {
    done = 1;
    return p;
}
int main(void) {
    pthread_t a;
    pthread_create(&a, 0, work, 0);
    while (!done) {}
    pthread_join(a, 0);
    return 0;
}
