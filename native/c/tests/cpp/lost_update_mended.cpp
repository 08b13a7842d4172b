// examples/lost_update_mended.pct in C++, each step in its line. See there.
#include "pct_test.hpp"
static pct::atomic<int> counter{0};

static void A() {
    counter.fetch_add(1);
}

static void B() {
    counter.fetch_add(1);
}

static void Check() { int r0 = 0;
    pct_join(0, nullptr);               // A
    pct_join(1, nullptr);               // B
    r0 = counter.load();
    PCT_CHECK(r0 == 2);
}

static void reset() {
    counter = 0;
}

int main(int count, char **words) {
    static const char *const names[] = { "A", "B", "Check" };
    static void (*const functions[])() = { A, B, Check };
    pct::name(counter, "counter");
    pct_options(count, words);
    pct_reset(reset);
    return pct_threads(3, names, functions);
}
