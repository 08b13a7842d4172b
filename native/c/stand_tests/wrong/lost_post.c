/* A post is left out where nobody seems to wait. */
#include <pthread.h>
#include <semaphore.h>
#include <stdatomic.h>
static sem_t s;
static atomic_int waiting, ready;
static void *waits(void *p) {
    if (!atomic_load(&ready)) {
        atomic_store(&waiting, 1);
        sem_wait(&s);
    }
    return p;
}
static void *posts(void *p) {
    atomic_store(&ready, 1);
    if (atomic_load(&waiting))
        sem_post(&s);
    return p;
}
int main(void) {
    pthread_t a, b;
    sem_init(&s, 0, 0);
    pthread_create(&a, 0, waits, 0);
    pthread_create(&b, 0, posts, 0);
    pthread_join(a, 0);
    pthread_join(b, 0);
    return 0;
}
