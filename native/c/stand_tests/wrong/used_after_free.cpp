// A listener is freed while a thread that took its pointer under the lock still uses it.
#include <mutex>
#include <thread>
struct Listener {
    virtual void call() {
        n++;
    }
    virtual ~Listener() {
    }
    int n = 0;
};
static std::mutex m;
static Listener *current = new Listener;
static void fire() {
    Listener *l;
    {
        std::lock_guard<std::mutex> g(m);
        l = current;
    }
    if (l) {
        static std::mutex io;
        io.lock();
        l->call();
        io.unlock();
    }
}
static void drop() {
    Listener *l;
    {
        std::lock_guard<std::mutex> g(m);
        l = current;
        current = nullptr;
    }
    delete l;
}
int main() {
    std::thread a(fire), b(drop);
    a.join();
    b.join();
}
