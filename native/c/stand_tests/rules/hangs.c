/* Hangs without a step, spins for ever, or waits for another process: by its first word. */
#include <pthread.h>
#include <stdatomic.h>
#include <unistd.h>
atomic_int never; /* not static: clang would make a local of it, without a step */
int main(int count, char **words) {
    int ends[2];
    char letter;
    if (count > 1 && words[1][0] == 'p') pause();
    if (count > 1 && words[1][0] == 's') while (!atomic_load(&never)) {}
    if (count > 1 && words[1][0] == 'r' && pipe(ends) == 0) return (int)read(ends[0], &letter, 1);
    return 0;
}
