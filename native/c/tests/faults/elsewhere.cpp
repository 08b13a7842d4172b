// A test that fails in a header, and is stuck there.
#include "pct_test.hpp"

#include "elsewhere.hpp"

static pct::atomic<int> number{ 0 };

static void fails() { must_be(number, 1); }

int main(int count, char **words) {
    pct_options(count, words);
    return pct_check(fails);
}
