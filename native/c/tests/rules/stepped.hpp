// A step in another file than the test's.
inline void add_two(pct::atomic<int> &number) {
    number.fetch_add(2);
}
