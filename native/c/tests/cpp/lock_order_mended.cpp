// examples/lock_order_mended.pct in C++, each step in its line. See there.
#include "pct_test.hpp"
static pct::atomic<int> savings{10};
static pct::atomic<int> cheques{10};
static pct::mutex of_savings;
static pct::mutex of_cheques;

static void Save() {
    of_savings.lock();
    of_cheques.lock();
    cheques.fetch_add(-3);
    savings.fetch_add(3);
    of_cheques.unlock();
    of_savings.unlock();
}

static void Spend() {
    of_savings.lock();
    of_cheques.lock();
    savings.fetch_add(-5);
    cheques.fetch_add(5);
    of_cheques.unlock();
    of_savings.unlock();
}

static void reset() {
    savings = 10;
    cheques = 10;
}

int main(int count, char **words) {
    static const char *const names[] = { "Save", "Spend" };
    static void (*const functions[])() = { Save, Spend };
    pct::name(savings, "savings");
    pct::name(cheques, "cheques");
    pct::name(of_savings, "of_savings");
    pct::name(of_cheques, "of_cheques");
    pct_options(count, words);
    pct_reset(reset);
    return pct_threads(2, names, functions);
}
