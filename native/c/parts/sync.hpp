/*
 * Part of pct_test.hpp: mutexes, conditions, semaphores, barriers, latches, and what is called
 * once.
 */
#ifndef PCT_TEST_SYNC_HPP
#define PCT_TEST_SYNC_HPP

#include "atomic.hpp"
#include "guards.hpp"

#include <cstddef>
#include <functional>
#include <mutex>
#include <system_error>
#include <type_traits>
#include <utility>

namespace pct {

namespace detail {
inline void demand(int status, const char *what) {
    if (status != 0) throw std::system_error(status, std::generic_category(), what);
}
} // namespace detail

/* --- Mutexes --- */

template <int Kind> class basic_mutex {
    pct_mutex_t inner{ PCT_OBJECT(0), Kind, 0, 0 };

  public:
    constexpr basic_mutex() noexcept = default;
    ~basic_mutex() { pct_mutex_destroy(&inner); }
    basic_mutex(const basic_mutex &) = delete;
    basic_mutex &operator=(const basic_mutex &) = delete;
    void lock(place at = place::here()) {
        detail::demand(pct_mutex_at(&inner, PCT_ASK_LOCK, at.of("mutex")), "lock");
    }
    bool try_lock(place at = place::here()) {
        return pct_mutex_at(&inner, PCT_ASK_TRY_LOCK, at.of("mutex")) == 0;
    }
    void unlock(place at = place::here()) { pct_mutex_at(&inner, PCT_ASK_UNLOCK, at.of("mutex")); }
    template <class Duration> bool try_lock_for(const Duration &, place at = place::here()) {
        return lock(at), true;
    }
    template <class Time> bool try_lock_until(const Time &, place at = place::here()) {
        return lock(at), true;
    }
    pct_mutex_t *native_handle() { return &inner; }
    const void *key() const { return &inner; }
};

using mutex = basic_mutex<PCT_MUTEX_NORMAL>;
using recursive_mutex = basic_mutex<PCT_MUTEX_RECURSIVE>;
using timed_mutex = mutex;
using recursive_timed_mutex = recursive_mutex;

class shared_mutex {
    pct_rwlock_t inner{ PCT_OBJECT(0) };

  public:
    constexpr shared_mutex() noexcept = default;
    ~shared_mutex() { pct_rwlock_destroy(&inner); }
    shared_mutex(const shared_mutex &) = delete;
    shared_mutex &operator=(const shared_mutex &) = delete;
    void lock(place at = place::here()) { pct_rwlock_at(&inner, PCT_ASK_WR_LOCK, at.of("rwlock")); }
    bool try_lock(place at = place::here()) {
        return pct_rwlock_at(&inner, PCT_ASK_TRY_WR_LOCK, at.of("rwlock")) == 0;
    }
    void unlock(place at = place::here()) {
        pct_rwlock_at(&inner, PCT_ASK_RW_UNLOCK, at.of("rwlock"));
    }
    void lock_shared(place at = place::here()) {
        pct_rwlock_at(&inner, PCT_ASK_RD_LOCK, at.of("rwlock"));
    }
    bool try_lock_shared(place at = place::here()) {
        return pct_rwlock_at(&inner, PCT_ASK_TRY_RD_LOCK, at.of("rwlock")) == 0;
    }
    void unlock_shared(place at = place::here()) {
        pct_rwlock_at(&inner, PCT_ASK_RW_UNLOCK, at.of("rwlock"));
    }
    template <class Duration> bool try_lock_for(const Duration &, place at = place::here()) {
        return lock(at), true;
    }
    template <class Time> bool try_lock_until(const Time &, place at = place::here()) {
        return lock(at), true;
    }
    template <class Duration> bool try_lock_shared_for(const Duration &, place at = place::here()) {
        return lock_shared(at), true;
    }
    template <class Time> bool try_lock_shared_until(const Time &, place at = place::here()) {
        return lock_shared(at), true;
    }
    const void *key() const { return &inner; }
};

using shared_timed_mutex = shared_mutex;

/* --- Conditions --- */

class stop_token;

enum class cv_status { no_timeout, timeout };

class condition_variable {
    pct_cond_t inner{ PCT_OBJECT(0) };

  public:
    constexpr condition_variable() noexcept = default;
    ~condition_variable() { pct_cond_destroy(&inner); }
    condition_variable(const condition_variable &) = delete;
    condition_variable &operator=(const condition_variable &) = delete;
    void notify_one(place at = place::here()) {
        pct_cond_at(&inner, PCT_ASK_SIGNAL, at.of("cond"));
    }
    void notify_all(place at = place::here()) {
        pct_cond_at(&inner, PCT_ASK_BROADCAST, at.of("cond"));
    }
    /* The lock is pct's own, or std's. */
    template <template <class> class Lock> void wait(Lock<mutex> &lock, place at = place::here()) {
        pct_cond_wait_at(&inner, lock.mutex()->native_handle(), at.of("cond"), "mutex");
    }
    template <template <class> class Lock, class Condition>
    void wait(Lock<mutex> &lock, Condition holds, place at = place::here()) {
        while (!holds()) wait(lock, at);
    }
    template <class Lock, class Time>
    cv_status wait_for(Lock &lock, const Time &, place at = place::here()) {
        return wait(lock, at), cv_status::no_timeout;
    }
    template <class Lock, class Time>
    cv_status wait_until(Lock &lock, const Time &, place at = place::here()) {
        return wait(lock, at), cv_status::no_timeout;
    }
    template <class Lock, class Time, class Condition,
              class = std::enable_if_t<std::is_invocable_v<Condition>>>
    bool wait_for(Lock &lock, const Time &, Condition holds, place at = place::here()) {
        return wait(lock, holds, at), true;
    }
    template <class Lock, class Time, class Condition,
              class = std::enable_if_t<std::is_invocable_v<Condition>>>
    bool wait_until(Lock &lock, const Time &, Condition holds, place at = place::here()) {
        return wait(lock, holds, at), true;
    }
    const void *key() const { return &inner; }
};

/* By a mutex of its own, as std's. */
class condition_variable_any {
    mutex guard;
    condition_variable changed;

  public:
    void notify_one(place at = place::here()) {
        lock_guard<mutex> held(guard, at);
        changed.notify_one(at);
    }
    void notify_all(place at = place::here()) {
        lock_guard<mutex> held(guard, at);
        changed.notify_all(at);
    }
    template <class Lock> void wait(Lock &lock, place at = place::here()) {
        unique_lock<mutex> held(guard, at);
        lock.unlock();
        changed.wait(held, at);
        held.unlock(at);
        lock.lock();
    }
    template <class Lock, class Condition, class = std::enable_if_t<std::is_invocable_v<Condition>>>
    void wait(Lock &lock, Condition holds, place at = place::here()) {
        while (!holds()) wait(lock, at);
    }
    /* Whether the condition holds: else it was told to stop. */
    template <class Lock, class Condition>
    bool wait(Lock &lock, stop_token token, Condition holds, place at = place::here());
    template <class Lock, class Time>
    cv_status wait_for(Lock &lock, const Time &, place at = place::here()) {
        return wait(lock, at), cv_status::no_timeout;
    }
    template <class Lock, class Time>
    cv_status wait_until(Lock &lock, const Time &, place at = place::here()) {
        return wait(lock, at), cv_status::no_timeout;
    }
    template <class Lock, class Time, class Condition,
              class = std::enable_if_t<std::is_invocable_v<Condition>>>
    bool wait_for(Lock &lock, const Time &, Condition holds, place at = place::here()) {
        return wait(lock, holds, at), true;
    }
    template <class Lock, class Time, class Condition,
              class = std::enable_if_t<std::is_invocable_v<Condition>>>
    bool wait_until(Lock &lock, const Time &, Condition holds, place at = place::here()) {
        return wait(lock, holds, at), true;
    }
    const void *key() const { return changed.key(); }
};

/* --- Semaphores and barriers --- */

template <std::ptrdiff_t Most = INT32_MAX> class counting_semaphore {
    pct_sem_t inner;

  public:
    constexpr explicit counting_semaphore(std::ptrdiff_t count) : inner{ PCT_OBJECT(count) } {}
    ~counting_semaphore() { pct_sem_destroy(&inner); }
    counting_semaphore(const counting_semaphore &) = delete;
    counting_semaphore &operator=(const counting_semaphore &) = delete;
    static constexpr std::ptrdiff_t max() noexcept { return Most; }
    void acquire(place at = place::here()) { pct_sem_at(&inner, PCT_ASK_DOWN, at.of("sem")); }
    bool try_acquire(place at = place::here()) {
        return pct_sem_at(&inner, PCT_ASK_TRY_DOWN, at.of("sem")) == 0;
    }
    template <class Time> bool try_acquire_for(const Time &, place at = place::here()) {
        return acquire(at), true;
    }
    template <class Time> bool try_acquire_until(const Time &, place at = place::here()) {
        return acquire(at), true;
    }
    void release(std::ptrdiff_t count = 1, place at = place::here()) {
        for (; count > 0; count--) pct_sem_at(&inner, PCT_ASK_UP, at.of("sem"));
    }
    const void *key() const { return &inner; }
};

using binary_semaphore = counting_semaphore<1>;

namespace detail {
struct no_completion {
    void operator()() noexcept {}
};
} // namespace detail

/* Without the halves arrive and wait. The last to arrive calls the completion function, as steps of
 * its own, and the others wait for that at a second barrier. */
template <class Completion = detail::no_completion> class barrier {
    pct_barrier_t inner, completed;
    Completion complete;

  public:
    constexpr explicit barrier(std::ptrdiff_t count, Completion completion = Completion())
        : inner{ PCT_OBJECT(count) }, completed{ PCT_OBJECT(count) },
          complete(std::move(completion)) {}
    ~barrier() {
        pct_barrier_destroy(&inner);
        pct_barrier_destroy(&completed);
    }
    barrier(const barrier &) = delete;
    barrier &operator=(const barrier &) = delete;
    void arrive_and_wait(place at = place::here()) {
        bool is_last = pct_barrier_wait_at(&inner, at.of("barrier")) != 0;
        if constexpr (!std::is_same_v<Completion, detail::no_completion>) {
            if (is_last) complete();
            pct_barrier_wait_at(&completed, at.of("completed"));
        }
    }
    const void *key() const { return &inner; }
};

/* Counts down once: by an atomic, on which those wait who come before it is 0. */
class latch {
    atomic<std::ptrdiff_t> left;

  public:
    constexpr explicit latch(std::ptrdiff_t count) : left(count) {}
    static constexpr std::ptrdiff_t max() noexcept { return PTRDIFF_MAX; }
    const volatile void *key() const { return left.key(); }
    void count_down(std::ptrdiff_t by = 1, place at = place::here()) {
        if (left.fetch_sub(by, 0, at) == by) left.notify_all(at);
    }
    bool try_wait(place at = place::here()) const { return left.load(0, at) == 0; }
    void wait(place at = place::here()) const {
        for (std::ptrdiff_t seen; (seen = left.load(0, at)) != 0;) left.wait(seen, 0, at);
    }
    void arrive_and_wait(std::ptrdiff_t by = 1, place at = place::here()) {
        count_down(by, at);
        wait(at);
    }
};

/* --- Once in each run --- */

class once_flag {
    pct_once_t inner = PCT_ONCE_INIT;

  public:
    constexpr once_flag() noexcept = default;
    ~once_flag() { pct_mutex_destroy(&inner.mutex); }
    once_flag(const once_flag &) = delete;
    once_flag &operator=(const once_flag &) = delete;
    pct_once_t *native_handle() { return &inner; }
    const void *key() const { return &inner.mutex; }
};

/* Who calls while another does waits for that; where the call throws another one is made. */
template <class Function, class... Arguments>
void call_once(once_flag &flag, Function &&function, Arguments &&...arguments) {
    const PctPlace at = place::unknown().of("once");
    struct leaves {
        once_flag &flag;
        const PctPlace &at;
        bool is_done;
        ~leaves() { pct_once_leave_at(flag.native_handle(), is_done, at); }
    } leave{ flag, at, !pct_once_enter_at(flag.native_handle(), at) };
    if (leave.is_done) return;
    std::invoke(std::forward<Function>(function), std::forward<Arguments>(arguments)...);
    leave.is_done = true;
}

} // namespace pct
#endif
