/* So many threads at once as its first word says, or, with a second word, one after the other. */
#include <pthread.h>
#include <stdlib.h>
static void *work(void *nothing) { return nothing; }
int main(int count, char **words) {
    int threads = atoi(words[1]);
    pthread_t all[200];
    for (int i = 0; i < threads; i++) {
        pthread_create(&all[i], NULL, work, NULL);
        if (count > 2) pthread_join(all[i], NULL);
    }
    for (int i = 0; i < threads && count == 2; i++) pthread_join(all[i], NULL);
    return 0;
}
