// examples/barrier_count.pct in C++, each step in its line. See there.
#include "pct_test.hpp"
static pct::barrier all{2};
static pct::atomic<int> parts{0};

static void A() { int r0 = 0;
    r0 = parts.fetch_add(1);
    all.arrive_and_wait();
    r0 = parts.load();                  // all four parts should be there
    PCT_CHECK(r0 == 4);
}

static void B() { int r0 = 0;
    r0 = parts.fetch_add(1);
    all.arrive_and_wait();
    r0 = parts.load();
    PCT_CHECK(r0 == 4);
}

static void C() { int r0 = 0;
    r0 = parts.fetch_add(1);
    all.arrive_and_wait();
    r0 = parts.load();
    PCT_CHECK(r0 == 4);
}

static void D() { int r0 = 0;
    r0 = parts.fetch_add(1);
    all.arrive_and_wait();
    r0 = parts.load();
    PCT_CHECK(r0 == 4);
}

static void reset() {
    parts = 0;
}

int main(int count, char **words) {
    static const char *const names[] = { "A", "B", "C", "D" };
    static void (*const functions[])() = { A, B, C, D };
    pct::name(all, "all");
    pct::name(parts, "parts");
    pct_options(count, words);
    pct_reset(reset);
    return pct_threads(4, names, functions);
}
