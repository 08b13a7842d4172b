// examples/start_before_init_mended.pct in C++, each step in its line. See there.
#include "pct_test.hpp"
static pct::atomic<int> config{0};
static void Worker();
static void Main() {
    config.store(7);
    pct::thread worker(Worker);
    worker.join();
}

static void Worker() { int r0 = 0;
    r0 = config.load();
    PCT_CHECK(r0 == 7);
}

static void reset() {
    config = 0;
}

int main(int count, char **words) {
    pct::name(config, "config");
    pct_options(count, words);
    pct_reset(reset);
    return pct_check(Main);
}
