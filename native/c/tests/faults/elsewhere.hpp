// A check in another file than the test's.
inline void must_be(pct::atomic<int> &number, int wanted) {
    PCT_CHECK(number.load() == wanted);
}
