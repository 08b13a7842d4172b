/* A signal to a thread that spins. */
#include <assert.h>
#include <pthread.h>
#include <signal.h>
#include <stdatomic.h>
static atomic_int got, ready;
static void on(int s) {
    (void)s;
    atomic_fetch_add(&got, 1);
}
static void *work(void *p) {
    atomic_store(&ready, 1);
    while (!atomic_load(&got)) {}
    return p;
}
int main(void) {
    pthread_t a;
    signal(SIGUSR1, on);
    pthread_create(&a, 0, work, 0);
    while (!atomic_load(&ready)) {}
    pthread_kill(a, SIGUSR1);
    pthread_join(a, 0);
    assert(got == 1);
    return 0;
}
