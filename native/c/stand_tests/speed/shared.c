/* 4,096,000 accesses of memory that two threads touch in turns, each after a barrier. */
#include <pthread.h>
static int numbers[4096];
static pthread_barrier_t barrier;
static void *add(void *second) {
    for (int round = 0; round < 250; round++) {
        if (second) pthread_barrier_wait(&barrier);
        for (int i = 0; i < 4096; i++) numbers[i] += i;
        if (!second) pthread_barrier_wait(&barrier);
        pthread_barrier_wait(&barrier);
    }
    return NULL;
}
int main(void) {
    pthread_t first, second;
    pthread_barrier_init(&barrier, NULL, 2);
    pthread_create(&first, NULL, add, NULL);
    pthread_create(&second, NULL, add, &barrier);
    pthread_join(first, NULL);
    pthread_join(second, NULL);
    return numbers[0];
}
