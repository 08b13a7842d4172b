// Double-checked locking whose pointer is plain.
#include <cassert>
#include <mutex>
#include <thread>
struct Config {
    int port, ready;
};
static Config *config;
static std::mutex m;
static Config *get() {
    if (!config) {
        std::lock_guard<std::mutex> l(m);
        if (!config) {
            config = new Config();
            config->port = 80;
            config->ready = 1;
        }
    }
    return config;
}
static void use() {
    assert(get()->ready == 1);
}
int main() {
    std::thread a(use), b(use);
    a.join();
    b.join();
    delete config;
}
