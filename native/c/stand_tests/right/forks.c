/* A program that forks and calls a shell. */
#include <assert.h>
#include <pthread.h>
#include <stdlib.h>
#include <sys/wait.h>
#include <unistd.h>
static pthread_mutex_t m = PTHREAD_MUTEX_INITIALIZER;
static int n;
static void *work(void *p) {
    pthread_mutex_lock(&m);
    n++;
    pthread_mutex_unlock(&m);
    return p;
}
int main(void) {
    pthread_t t;
    pthread_create(&t, 0, work, 0);
    int s;
    if (fork() == 0) {
        pthread_mutex_lock(&m);
        pthread_mutex_unlock(&m);
        _exit(3);
    }
    wait(&s);
    assert(WEXITSTATUS(s) == 3);
    assert(system("exit 4") >> 8 == 4);
    pthread_join(t, 0);
    return 0;
}
