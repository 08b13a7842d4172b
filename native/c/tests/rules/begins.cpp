// Where threads begin: in the line that created them, or after a place, where that has none.
#include "pct_test.hpp"

static void *nothing(void *argument) { return argument; }

static void create_two() {
    pct_thread_t first, second;
    pct_create(&first, nullptr, nothing, nullptr);
    pct_create(&second, nullptr, nothing, nullptr);
    pct_join(first, nullptr);
    pct_join(second, nullptr);
}

static void test() {
    pct::thread creator = pct::thread::started(create_two);
    pct_step();
    pct::thread other([] { pct_step(); });
    other.join();
    creator.join();
}

int main(int count, char **words) {
    pct_options(count, words);
    return pct_check(test);
}
