// Double-checked locking by a relaxed atomic: x86 never shows it, and it is a race.
#include <atomic>
#include <cassert>
#include <mutex>
#include <thread>
struct Config {
    int port;
};
static std::atomic<Config *> config;
static std::mutex m;
static Config *get() {
    Config *c = config.load(std::memory_order_relaxed);
    if (!c) {
        std::lock_guard<std::mutex> l(m);
        c = config.load(std::memory_order_relaxed);
        if (!c) {
            c = new Config();
            c->port = 80;
            config.store(c, std::memory_order_relaxed);
        }
    }
    return c;
}
static void use() {
    assert(get()->port == 80);
}
int main() {
    std::thread a(use), b(use);
    a.join();
    b.join();
    delete config.load();
}
