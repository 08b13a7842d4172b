// Threads that are created by two others: whatever order they come in, a replay calls them as its trace does.
#include "pct_test.hpp"

static pct::atomic<int> number{ 0 };

static void grow() { number.fetch_add(1); }

static void create_two() {
    pct::thread first(grow), second(grow);
    first.join();
    second.join();
}

static void test() {
    pct::thread one(create_two), other(create_two);
    one.join();
    other.join();
    PCT_CHECK(number.load() < 4);
}

static void reset() { number = 0; }

int main(int count, char **words) {
    pct_options(count, words);
    pct_reset(reset);
    return pct_check(test);
}
