// A function-local static whose constructor makes steps: who comes to it meanwhile waits by a step.
#include "pct_test.hpp"

static pct::atomic<int> made{ 0 };

struct Table {
    int size = 0;
    Table() {
        made.fetch_add(1);
        size = made.load() + 6;
    }
};

static Table &table() {
    static Table only;
    return only;
}

static void use() { PCT_CHECK(table().size == 7); }

static void test() {
    pct::thread one = pct::thread::started(use), other = pct::thread::started(use);
    use();
    one.join();
    other.join();
    PCT_CHECK(made.load() == 1);
}

int main(int count, char **words) {
    pct_options(count, words);
    return pct_check(test);
}
