/*
 * Part of pct_test.hpp: threads, those that are told to stop, and what they are told by.
 */
#ifndef PCT_TEST_THREADS_HPP
#define PCT_TEST_THREADS_HPP

#include "atomic.hpp"
#include "sync.hpp"

#include <exception>
#include <functional>
#include <list>
#include <memory>
#include <ostream>
#include <tuple>
#include <type_traits>
#include <utility>

namespace pct {

namespace detail {
template <class Call> void *called(void *call) {
    std::unique_ptr<Call> owned(static_cast<Call *>(call));
    std::apply([](auto &&...parts) { std::invoke(std::move(parts)...); }, std::move(*owned));
    return nullptr;
}
} // namespace detail

/* Its constructor has the place of its caller by debug information, since its arguments are of any
 * number; `started` takes one. */
class thread {
    pct_thread_t number = 0;
    bool is_joinable = false;

  public:
    /* One more than the thread's number; 0 of none. */
    class id {
        pct_thread_t number = 0;

      public:
        id() noexcept = default;
        explicit id(pct_thread_t thread) noexcept : number(thread + 1) {}
        friend bool operator==(id one, id other) noexcept { return one.number == other.number; }
        friend bool operator!=(id one, id other) noexcept { return one.number != other.number; }
        friend bool operator<(id one, id other) noexcept { return one.number < other.number; }
        friend bool operator>(id one, id other) noexcept { return one.number > other.number; }
        friend bool operator<=(id one, id other) noexcept { return one.number <= other.number; }
        friend bool operator>=(id one, id other) noexcept { return one.number >= other.number; }
        friend std::ostream &operator<<(std::ostream &to, id one) { return to << one.number; }
        friend struct std::hash<id>;
    };
    using native_handle_type = pct_thread_t;
    thread() noexcept = default;
    template <class Function, class... Arguments,
              class = std::enable_if_t<!std::is_same_v<std::decay_t<Function>, thread> &&
                                       !std::is_same_v<std::decay_t<Function>, place>>>
    explicit thread(Function &&function, Arguments &&...arguments)
        : thread(place::unknown(), std::forward<Function>(function),
                 std::forward<Arguments>(arguments)...) {}
    template <class Function, class... Arguments>
    thread(place at, Function &&function, Arguments &&...arguments) {
        using Call = std::tuple<std::decay_t<Function>, std::decay_t<Arguments>...>;
        auto call = std::make_unique<Call>(std::forward<Function>(function),
                                           std::forward<Arguments>(arguments)...);
        detail::demand(
            pct_create_at(&number, nullptr, detail::called<Call>, call.get(), at.of("thread")),
            "thread");
        (void)call.release();
        is_joinable = true;
    }
    template <class Function> static thread started(Function &&function, place at = place::here()) {
        return thread(at, std::forward<Function>(function));
    }
    thread(thread &&other) noexcept { swap(other); }
    thread &operator=(thread &&other) noexcept {
        if (is_joinable) std::terminate();
        swap(other);
        return *this;
    }
    ~thread() {
        if (is_joinable) std::terminate();
    }
    void swap(thread &other) noexcept {
        std::swap(number, other.number);
        std::swap(is_joinable, other.is_joinable);
    }
    bool joinable() const noexcept { return is_joinable; }
    id get_id() const noexcept { return is_joinable ? id(number) : id(); }
    native_handle_type native_handle() const noexcept { return number; }
    static unsigned hardware_concurrency() noexcept { return 4; } /* the same on each machine */
    void join(place at = place::here()) {
        detail::demand(is_joinable ? pct_join_at(number, nullptr, at.of("thread")) : EINVAL,
                       "join");
        is_joinable = false;
    }
    void detach(place at = place::here()) {
        detail::demand(is_joinable ? pct_detach_at(number, at.of("thread")) : EINVAL, "detach");
        is_joinable = false;
    }
};

namespace this_thread {
inline thread::id get_id() { return thread::id(pct_self()); }
inline void yield(place at = place::here()) { pct_yield_at(at.of("thread")); }
template <class Time> void sleep_for(const Time &, place at = place::here()) {
    pct_sleep_at(at.of("thread"));
}
template <class Time> void sleep_until(const Time &, place at = place::here()) {
    pct_sleep_at(at.of("thread"));
}
} // namespace this_thread

/* --- Stop tokens --- */

namespace detail {
struct stop_call {
    virtual void run() = 0;

  protected:
    ~stop_call() = default;
};

/* What the sources, the tokens and the callbacks of one stop have in common. */
class stop_state {
    mutex guard;
    condition_variable ended; /* a callback */
    atomic<bool> requested{ false };
    std::list<stop_call *> calls;
    stop_call *running = nullptr;
    thread::id runner;

  public:
    bool is_requested(place at) const { return requested.load(0, at); }
    bool request(place at) {
        unique_lock<mutex> held(guard, at);
        if (requested.exchange(true, 0, at)) return false;
        runner = this_thread::get_id();
        while (!calls.empty()) {
            running = calls.front();
            calls.pop_front();
            held.unlock(at);
            running->run();
            held.lock(at);
            running = nullptr;
            ended.notify_all(at);
        }
        return true;
    }
    /* Whether it was taken down for later; else it is to run at once. */
    bool add(stop_call *call, place at) {
        lock_guard<mutex> held(guard, at);
        if (requested.load(0, at)) return false;
        calls.push_back(call);
        return true;
    }
    /* Waits for its end where another thread runs it. */
    void remove(stop_call *call, place at) {
        unique_lock<mutex> held(guard, at);
        calls.remove(call);
        while (running == call && runner != this_thread::get_id()) ended.wait(held, at);
    }
};
} // namespace detail

struct nostopstate_t {
    explicit nostopstate_t() = default;
};
inline constexpr nostopstate_t nostopstate{};

class stop_token {
    std::shared_ptr<detail::stop_state> state;
    friend class stop_source;
    template <class> friend class stop_callback;
    explicit stop_token(std::shared_ptr<detail::stop_state> of) : state(std::move(of)) {}

  public:
    stop_token() noexcept = default;
    bool stop_possible() const noexcept { return state != nullptr; }
    bool stop_requested(place at = place::here()) const { return state && state->is_requested(at); }
};

class stop_source {
    std::shared_ptr<detail::stop_state> state;

  public:
    stop_source() : state(std::make_shared<detail::stop_state>()) {}
    explicit stop_source(nostopstate_t) noexcept {}
    stop_token get_token() const { return stop_token(state); }
    bool stop_possible() const noexcept { return state != nullptr; }
    bool stop_requested(place at = place::here()) const { return state && state->is_requested(at); }
    bool request_stop(place at = place::here()) const { return state && state->request(at); }
};

template <class Callback> class stop_callback final : detail::stop_call {
    Callback callback;
    std::shared_ptr<detail::stop_state> state;
    void run() override { callback(); }

  public:
    using callback_type = Callback;
    template <class Given>
    explicit stop_callback(const stop_token &token, Given &&given, place at = place::here())
        : callback(std::forward<Given>(given)), state(token.state) {
        if (state && !state->add(this, at)) {
            state = nullptr;
            callback();
        }
    }
    ~stop_callback() {
        if (state) state->remove(this, place::unknown());
    }
    stop_callback(const stop_callback &) = delete;
    stop_callback &operator=(const stop_callback &) = delete;
};
template <class Callback> stop_callback(stop_token, Callback) -> stop_callback<Callback>;

template <class Lock, class Condition>
bool condition_variable_any::wait(Lock &lock, stop_token token, Condition holds, place at) {
    auto wake = [this, at] { notify_all(at); };
    stop_callback<decltype(wake)> told(token, wake, at);
    while (!holds()) {
        unique_lock<mutex> held(guard, at);
        if (token.stop_requested(at)) return false;
        lock.unlock();
        changed.wait(held, at);
        held.unlock(at);
        lock.lock();
    }
    return true;
}

/* A thread that is told to stop and joined where it is destroyed. */
class jthread {
    stop_source source;
    thread inner;

  public:
    using id = thread::id;
    jthread() noexcept : source(nostopstate) {}
    template <class Function, class... Arguments,
              class = std::enable_if_t<!std::is_same_v<std::decay_t<Function>, jthread>>>
    explicit jthread(Function &&function, Arguments &&...arguments) {
        if constexpr (std::is_invocable_v<std::decay_t<Function>, stop_token,
                                          std::decay_t<Arguments>...>)
            inner = thread(std::forward<Function>(function), source.get_token(),
                           std::forward<Arguments>(arguments)...);
        else
            inner = thread(std::forward<Function>(function), std::forward<Arguments>(arguments)...);
    }
    jthread(jthread &&) noexcept = default;
    jthread &operator=(jthread &&other) noexcept {
        jthread(std::move(other)).swap(*this);
        return *this;
    }
    ~jthread() {
        if (!joinable()) return;
        request_stop(place::unknown());
        join(place::unknown());
    }
    void swap(jthread &other) noexcept {
        std::swap(source, other.source);
        inner.swap(other.inner);
    }
    bool joinable() const noexcept { return inner.joinable(); }
    id get_id() const noexcept { return inner.get_id(); }
    void join(place at = place::here()) { inner.join(at); }
    void detach(place at = place::here()) { inner.detach(at); }
    stop_source get_stop_source() const { return source; }
    stop_token get_stop_token() const { return source.get_token(); }
    bool request_stop(place at = place::here()) { return source.request_stop(at); }
};

} // namespace pct

template <> struct std::hash<pct::thread::id> {
    std::size_t operator()(pct::thread::id one) const noexcept { return one.number; }
};
#endif
