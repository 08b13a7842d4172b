/* 8,192,000 accesses of memory that main alone touches, after a second thread. */
#include <pthread.h>
static int numbers[4096];
static void *idle(void *nothing) { return nothing; }
int main(void) {
    pthread_t other;
    pthread_create(&other, NULL, idle, NULL);
    for (int round = 0; round < 1000; round++)
        for (int i = 0; i < 4096; i++) numbers[i] += i;
    pthread_join(other, NULL);
    return numbers[0];
}
