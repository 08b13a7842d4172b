/* Two threads each add one to a plain counter: a race, and a lost update. */
#include <assert.h>
#include <pthread.h>
static int counter;
static void *add(void *p) {
    counter++;
    return p;
}
int main(void) {
    pthread_t a, b;
    pthread_create(&a, 0, add, 0);
    pthread_create(&b, 0, add, 0);
    pthread_join(a, 0);
    pthread_join(b, 0);
    assert(counter == 2);
    return 0;
}
