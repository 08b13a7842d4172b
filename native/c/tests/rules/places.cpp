// Where steps stand: here, in another file, and after a place, by an operator and by std's guard.
#include "pct_test.hpp"

#include "stepped.hpp"

static pct::atomic<int> number{0};
static pct::mutex mutex;
static pct::shared_mutex shared;

static void One() {
    add_two(number);
    number += 3;
    {
        std::lock_guard<pct::mutex> held(mutex);
    }
    {
        pct::lock_guard<pct::mutex> held(mutex);
    }
    {
        pct::scoped_lock held{mutex};
        pct::shared_lock<pct::shared_mutex> reads(shared);
    }
    {
        pct::unique_lock<pct::mutex> held(mutex);
        held.unlock();
    }
    PCT_CHECK(number.load() == 0);
}

static void reset() { number = 0; }

int main(int count, char **words) {
    static const char *const names[] = {"One"};
    static void (*const functions[])() = {One};
    pct::name(number, "number");
    pct::name(mutex, "guard");
    pct_options(count, words);
    pct_reset(reset);
    return pct_threads(1, names, functions);
}
