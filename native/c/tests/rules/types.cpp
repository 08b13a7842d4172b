// Each type of pct_test.hpp, through pct's guards and through std's.
#include "pct_test.hpp"

#include <climits>
#include <cstdlib>
#include <shared_mutex>

static pct::mutex mutex;
static pct::recursive_mutex recursive;
static pct::timed_mutex timed;
static pct::shared_mutex shared;
static pct::condition_variable changed;
static pct::condition_variable_any any;
static pct::counting_semaphore<> sem{ 1 };
static pct::barrier barrier{ 2 };
static pct::atomic<int> number{ 0 };
static pct::atomic<bool> flag{ false };
static pct::atomic<unsigned char> byte{ 0 };
static pct::atomic<const int *> pointer{ nullptr };
static const int cells[3] = { 1, 2, 3 };
static const std::chrono::seconds second{ 1 };

static void must(bool holds) {
    if (!holds) std::abort();
}

static void use_guards() {
    {
        pct::lock_guard held(mutex);
        must(!mutex.try_lock());
        pct::scoped_lock others{ timed, recursive };
        must(recursive.try_lock());
        recursive.unlock();
    }
    {
        std::lock_guard<pct::mutex> held(mutex);
        std::scoped_lock others{ recursive, timed };
        pct::scoped_lock none{};
    }
    {
        pct::shared_lock reads(shared);
        must(shared.try_lock_shared() && !shared.try_lock());
        shared.unlock_shared();
        pct::shared_lock also = std::move(reads);
        must(also.owns_lock() && !reads);
    }
    std::shared_lock reads(shared);
    reads.unlock();
    std::unique_lock writes(shared, std::try_to_lock);
    must(writes.owns_lock());
}

static void use_locks() {
    pct::unique_lock held(mutex, std::defer_lock);
    must(!held && held.mutex() == &mutex && held.try_lock());
    held.unlock();
    try {
        held.unlock();
        must(false);
    } catch (const std::system_error &) {
    }
    must(timed.try_lock_for(second));
    pct::unique_lock<pct::timed_mutex> adopted(timed, std::adopt_lock);
    must(adopted.release() == &timed);
    timed.unlock();
}

static void use_atomics() {
    must(number++ == 0 && ++number == 2 && (number += 3) == 5 && (number -= 7) == -2 &&
         number-- == -2);
    must((number |= 1) == -3 && (number &= 6) == 4 && (number ^= 5) == 1 && number == 1);
    number = INT_MAX;
    must(++number == INT_MIN && number.fetch_sub(1) == INT_MIN && number.load() == INT_MAX);
    int expected = 4;
    must(!number.compare_exchange_strong(expected, 5) && expected == INT_MAX);
    must(number.compare_exchange_weak(expected, 5, std::memory_order_acq_rel) && number == 5);
    flag.store(true, std::memory_order_release);
    must(flag && flag.exchange(false) && !flag.load(std::memory_order_acquire));
    must(--byte == 255 && byte.fetch_or(1) == 255 && ++byte == 0);
    pointer = cells;
    must(*pointer == 1 && *++pointer == 2 && (pointer += 1) == &cells[2] && pointer-- == &cells[2]);
    must(pointer.load() == &cells[1] && pointer.fetch_sub(1) == &cells[1]);
}

static void wait_both() {
    pct::unique_lock held(mutex);
    changed.wait(held, [] { return number.load() >= 10; });
    std::unique_lock<pct::mutex> own = (held.unlock(), std::unique_lock<pct::mutex>(mutex));
    must(changed.wait_for(own, second, [] { return number.load() >= 10; }));
    any.wait(own, [] { return number.load() >= 11; });
    own.unlock();
    sem.acquire();
    must(!sem.try_acquire());
    sem.release();
    barrier.arrive_and_wait();
}

static void tell_both() {
    {
        pct::lock_guard held(mutex);
        number = 10;
        changed.notify_all();
    }
    pct::lock_guard held(mutex);
    number = 11;
    any.notify_one();
}

static void test() {
    use_guards();
    use_locks();
    use_atomics();
    pct::thread waiter(wait_both), none;
    auto teller = pct::thread::started([] { tell_both(); });
    must(waiter.joinable() && !none.joinable() && waiter.get_id() != teller.get_id());
    pct::this_thread::yield();
    barrier.arrive_and_wait();
    waiter.join();
    teller.join();
    pct::thread([](int by) { must(by == 3); }, 3).detach();
    PCT_CHECK(number.load() == 11);
}

static void reset() {
    number = 0;
    flag = false;
    byte = 0;
    pointer = nullptr;
}

int main(int count, char **words) {
    pct_options(count, words);
    pct_reset(reset);
    return pct_check(test);
}
