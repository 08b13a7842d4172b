/* Ends with the status that its first word says, or dies by its second. */
#include <signal.h>
#include <stdlib.h>
int main(int count, char **words) {
    if (count > 2) raise(atoi(words[2]));
    return count > 1 ? atoi(words[1]) : 0;
}
