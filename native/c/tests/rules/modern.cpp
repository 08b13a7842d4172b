// What C++17 to C++23 have for threads, each once, under another name of the namespace.
#include "pct_test.hpp"

#include <cstdlib>
#include <shared_mutex>
#include <stdexcept>
#include <string>
#include <unistd.h> // its function sync() is why the namespace isn't called so

namespace threads = pct;

static threads::atomic<int> number{ 0 };
static threads::once_flag once;
static int made;

static void must(bool holds) {
    if (!holds) std::abort();
}

enum class Colour : short { red, green };

struct Pair {
    int first, second;
};

static void use_atomics() {
    threads::atomic<double> real{ 1.5 };
    must(real.fetch_add(2) == 1.5 && (real -= 0.5) == 3 && real.load() == 3);
    double wanted = 4;
    must(!real.compare_exchange_strong(wanted, 5) && wanted == 3 &&
         real.compare_exchange_weak(wanted, 5));
    threads::atomic<Colour> colour{ Colour::red };
    must(colour.exchange(Colour::green) == Colour::red && colour == Colour::green);
    threads::atomic<Pair> pair{ Pair{ 1, 2 } };
    Pair expected{ 1, 2 };
    must(pair.compare_exchange_strong(expected, Pair{ 3, 4 }) && pair.load().second == 4);
    static int cells[4];
    threads::atomic<int *> at{ cells };
    must(at++ == cells && (at += 2) == &cells[3] && at.fetch_sub(3) == &cells[3] && at == cells);
    long plain = 5;
    threads::atomic_ref<long> ref(plain);
    must(++ref == 6 && ref.fetch_or(8) == 6 && plain == 14);
    threads::atomic_flag flag = ATOMIC_FLAG_INIT;
    must(!flag.test_and_set() && flag.test() && flag.test_and_set(threads::memory_order_acquire));
    flag.clear(threads::memory_order_release);
    threads::atomic_thread_fence(threads::memory_order_seq_cst);
    must(!flag.test());
    threads::atomic_int count{ 1 };
    must(threads::atomic_fetch_add(&count, 2) == 1 && threads::atomic_load(&count) == 3);
}

static void use_locks() {
    threads::mutex one, other;
    threads::recursive_timed_mutex recursive;
    threads::shared_timed_mutex shared;
    std::lock(one, other);
    one.unlock();
    must(threads::try_lock(one, other) == 1);
    other.unlock();
    threads::lock(one, other);
    {
        threads::scoped_lock adopted(std::adopt_lock, one, other);
    }
    {
        std::scoped_lock held(one, other, recursive);
        must(recursive.try_lock_for(std::chrono::seconds(1)));
        recursive.unlock();
    }
    must(shared.try_lock_shared_for(std::chrono::seconds(1)) && !shared.try_lock());
    shared.unlock_shared();
    threads::counting_semaphore<3> places{ 2 };
    must(places.try_acquire() && places.try_acquire() && !places.try_acquire());
    places.release(2);
}

static void make() {
    if (++made == 1) throw std::runtime_error("the first time it fails");
}

static void use_once() {
    try {
        threads::call_once(once, make);
    } catch (const std::runtime_error &) {
        threads::call_once(once, make);
    }
    threads::call_once(once, make);
}

static int doubled(int value) { return 2 * value; }

static void use_futures() {
    threads::promise<std::string> words;
    threads::future<std::string> said = words.get_future();
    threads::thread speaker([&words] { words.set_value("said"); });
    must(said.get() == "said" && !said.valid());
    speaker.join();
    threads::packaged_task<int(int)> task(doubled);
    threads::shared_future<int> result = task.get_future().share();
    threads::thread worker(std::move(task), 21);
    must(result.get() == 42 && result.get() == 42);
    worker.join();
    must(threads::async(doubled, 4).get() == 8);
    threads::future<void> late = threads::async(threads::launch::deferred, [] { number = 7; });
    must(late.wait_for(std::chrono::seconds(0)) == threads::future_status::deferred);
    late.get();
    must(number.load() == 7);
    threads::future<int> broken = threads::promise<int>().get_future();
    try {
        broken.get();
        must(false);
    } catch (const threads::future_error &error) {
        must(error.code() == threads::future_errc::broken_promise);
    }
    threads::future<void> throws = threads::async([] { throw std::runtime_error("thrown"); });
    try {
        throws.get();
        must(false);
    } catch (const std::runtime_error &) {
    }
}

static void use_stops() {
    threads::mutex mutex;
    threads::condition_variable_any changed;
    threads::atomic<bool> was_told{ false };
    {
        threads::jthread waiter([&](threads::stop_token token) {
            threads::stop_callback told(token, [&was_told] { was_told = true; });
            threads::unique_lock<threads::mutex> held(mutex);
            must(!changed.wait(held, token, [] { return false; }));
            must(token.stop_requested());
        });
        threads::jthread other(doubled, 3), none;
        must(other.joinable() && !none.joinable() && !none.request_stop());
    }
    must(was_told);
    threads::stop_source source;
    must(source.request_stop() && !source.request_stop() && source.get_token().stop_requested());
}

static void use_waits() {
    threads::latch ready{ 2 };
    threads::thread teller([&ready] {
        ready.count_down();
        number.store(9);
        number.notify_all();
    });
    ready.arrive_and_wait();
    must(ready.try_wait());
    number.wait(7);
    must(number.load() == 9);
    teller.join();
    must(teller.get_id() == threads::thread::id() &&
         threads::this_thread::get_id() != threads::thread::id());
}

static void test() {
    use_atomics();
    use_locks();
    use_once();
    use_futures();
    use_stops();
    use_waits();
    PCT_CHECK(made == 2);
}

static void reset() {
    number = 0;
    made = 0;
}

int main(int count, char **words) {
    pct_options(count, words);
    pct_reset(reset);
    return pct_check(test);
}
