/* A thread is cancelled in a wait, and its cleanup handler unlocks. */
#include <assert.h>
#include <pthread.h>
#include <unistd.h>
static pthread_mutex_t m = PTHREAD_MUTEX_INITIALIZER;
static pthread_cond_t c = PTHREAD_COND_INITIALIZER;
static void *work(void *p) {
    pthread_mutex_lock(&m);
    pthread_cleanup_push((void (*)(void *))pthread_mutex_unlock, &m);
    while (1) pthread_cond_wait(&c, &m);
    pthread_cleanup_pop(1);
    return p;
}
int main(void) {
    pthread_t a;
    pthread_create(&a, 0, work, 0);
    pthread_cancel(a);
    void *v;
    pthread_join(a, &v);
    assert(v == PTHREAD_CANCELED);
    return 0;
}
