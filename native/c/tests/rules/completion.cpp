// A barrier's completion function: the last to arrive calls it once a phase, before others go on.
#include "pct_test.hpp"

static const int threads = 3, phases = 2;
static pct::atomic<int> arrivals{ 0 }, completions{ 0 };
static int callers[phases];

static void complete() noexcept {
    callers[completions.load()]++;
    PCT_CHECK(arrivals.load() == threads * (completions.load() + 1));
    completions++;
}
static pct::barrier meeting{ threads, complete };

static void meet() {
    for (int phase = 1; phase <= phases; phase++) {
        arrivals++;
        meeting.arrive_and_wait();
        PCT_CHECK(completions.load() == phase);
    }
}

static void test() {
    int told = 0;
    pct::barrier counted{ 1, [&told] { told++; } };
    counted.arrive_and_wait();
    PCT_CHECK(told == 1);
    pct::thread one(meet), other(meet);
    meet();
    one.join();
    other.join();
    PCT_CHECK(callers[0] == 1 && callers[1] == 1);
}

static void reset() {
    arrivals = completions = 0;
    callers[0] = callers[1] = 0;
}

int main(int count, char **words) {
    pct::name(meeting, "meeting");
    pct::name(completions, "completions");
    pct_options(count, words);
    pct_reset(reset);
    return pct_check(test);
}
