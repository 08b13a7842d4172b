// A run that fails the first time that the program is run in a folder, and never again.
#include "pct_test.h"
#include <fcntl.h>
#include <unistd.h>

static void Only(void) {
    int made = open("once.made", O_CREAT | O_EXCL | O_WRONLY, 0600);
    if (made >= 0) close(made);
    PCT_CHECK(made < 0);
}

int main(int count, char **words) {
    pct_options(count, words);
    return pct_check(Only);
}
