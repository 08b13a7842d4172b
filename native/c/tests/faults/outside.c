// A step where no run is going on.
#include "pct_test.h"

static pct_sem_t sem = PCT_SEM_INITIALIZER(0);

int main(void) {
    pct_sem_post(&sem);
    return 0;
}
