/* stdio's lock, held over a step. */
#include <pthread.h>
#include <stdio.h>
static pthread_mutex_t m = PTHREAD_MUTEX_INITIALIZER;
static void *work(void *p) {
    flockfile(stdout);
    printf("hello ");
    pthread_mutex_lock(&m);
    printf("%d\n", (int)(long)p);
    pthread_mutex_unlock(&m);
    funlockfile(stdout);
    return p;
}
int main(void) {
    pthread_t a, b;
    pthread_create(&a, 0, work, 0);
    pthread_create(&b, 0, work, (void *)1);
    pthread_join(a, 0);
    pthread_join(b, 0);
    return 0;
}
