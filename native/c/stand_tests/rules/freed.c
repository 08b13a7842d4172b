/* Uses memory that was freed, or frees it twice: by its first word. */
#include <stdlib.h>
int main(int count, char **words) {
    volatile int *block = malloc(sizeof *block);
    (void)count;
    if (!block) return 1;
    *block = 1;
    free((void *)block);
    if (words[1][0] == 'u') return *block;
    free((void *)block);
    return 0;
}
