// A thread has ended when its thread-locals have been destroyed: a destructor's steps are its own.
#include "pct_test.hpp"

static pct::atomic<int> gone{0};

struct Last {
    int is_used = 0;
    ~Last() { gone.fetch_add(1); }
};
static thread_local Last last;

static void test() {
    pct::thread one([] { last.is_used = 1; });
    pct::thread two([] { last.is_used = 1; });
    one.join();
    two.join();
    PCT_CHECK(gone.load() == 2);
}

static void reset() { gone = 0; }

int main(int count, char **words) {
    pct_options(count, words);
    pct_reset(reset);
    return pct_check(test);
}
