/* A cache that is looked at under a read lock and filled under a write lock that looks no more. */
#include <assert.h>
#include <pthread.h>
#include <stdatomic.h>
static pthread_rwlock_t l = PTHREAD_RWLOCK_INITIALIZER;
static _Atomic int filled, fills;
static void *look(void *p) {
    pthread_rwlock_rdlock(&l);
    int missing = !filled;
    pthread_rwlock_unlock(&l);
    if (missing) {
        pthread_rwlock_wrlock(&l);
        fills++;
        filled = 1;
        pthread_rwlock_unlock(&l);
    }
    return p;
}
int main(void) {
    pthread_t a, b;
    pthread_create(&a, 0, look, 0);
    pthread_create(&b, 0, look, 0);
    pthread_join(a, 0);
    pthread_join(b, 0);
    assert(fills == 1);
    return 0;
}
