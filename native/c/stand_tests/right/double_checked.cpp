// Double-checked locking by acquire and release.
#include <atomic>
#include <cassert>
#include <mutex>
#include <thread>
struct Config {
    int port;
};
static std::atomic<Config *> config;
static std::mutex m;
static Config *get() {
    Config *c = config.load(std::memory_order_acquire);
    if (!c) {
        std::lock_guard<std::mutex> l(m);
        c = config.load(std::memory_order_acquire);
        if (!c) {
            c = new Config();
            c->port = 80;
            config.store(c, std::memory_order_release);
        }
    }
    return c;
}
static void use() {
    assert(get()->port == 80);
}
int main() {
    std::thread a(use), b(use);
    a.join();
    b.join();
    delete config.load();
}
