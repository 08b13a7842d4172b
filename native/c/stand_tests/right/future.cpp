// Futures, std::call_once, a static in a function and a shared pointer.
#include <cassert>
#include <future>
#include <memory>
#include <mutex>
static std::once_flag f;
static int inits;
struct S {
    S() {
        inits++;
    }
    int v = 7;
};
static S &get() {
    static S s;
    return s;
}
int main() {
    auto p = std::make_shared<int>(3);
    std::promise<int> pr;
    auto fu = pr.get_future();
    auto a = std::async(std::launch::async, [p] {
        std::call_once(f, [] { inits++; });
        return *p + get().v;
    });
    auto b = std::async(std::launch::async, [p, &fu] {
        std::call_once(f, [] { inits++; });
        return *p + get().v + fu.get();
    });
    pr.set_value(1);
    assert(a.get() == 10 && b.get() == 11 && inits == 2);
}
