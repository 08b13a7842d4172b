// std::shared_mutex, std::condition_variable_any, a map, strings, weak pointers, iostreams.
#include <cassert>
#include <condition_variable>
#include <iostream>
#include <map>
#include <memory>
#include <shared_mutex>
#include <string>
#include <thread>
#include <unordered_map>
int main() {
    std::shared_mutex m;
    std::condition_variable_any c;
    std::map<int, std::string> t;
    bool ok = false;
    std::shared_ptr<int> p = std::make_shared<int>(1);
    std::weak_ptr<int> w = p;
    std::thread a([&] {
        std::unique_lock l(m);
        t[1] = "a long string that is on the heap ............";
        ok = true;
        c.notify_all();
    });
    std::thread b([&] {
        std::shared_lock l(m);
        c.wait(l, [&] { return ok; });
        std::cout << t.at(1).size() << std::endl;
        auto q = w.lock();
        if (q)
            ++*t.at(1).begin(), 0;
    });
    p.reset();
    a.join();
    b.join();
    assert(t.size() == 1);
}
