/* A plain counter of hints races; nothing depends on it but the assertion with a word. */
#include <assert.h>
#include <pthread.h>
static int hints;
static void *count_hint(void *nothing) {
    hints++;
    return nothing;
}
int main(int count, char **words) {
    pthread_t a, b;
    (void)words;
    pthread_create(&a, NULL, count_hint, NULL);
    pthread_create(&b, NULL, count_hint, NULL);
    pthread_join(a, NULL);
    pthread_join(b, NULL);
    assert(count == 1 || hints == 2);
    return 0;
}
