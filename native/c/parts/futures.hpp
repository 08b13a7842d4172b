/*
 * Part of pct_test.hpp: values that another thread gives: promises, tasks and futures, by a mutex
 * and a condition. Errors, launches and states are std's.
 */
#ifndef PCT_TEST_FUTURES_HPP
#define PCT_TEST_FUTURES_HPP

#include "threads.hpp"

#include <functional>
#include <future>
#include <memory>
#include <optional>
#include <tuple>
#include <type_traits>
#include <utility>

namespace pct {

using std::future_errc;
using std::future_error;
using std::future_status;
using std::launch;

namespace detail {
struct nothing {};

/* What a promise and its futures have in common. */
template <class Value> class given {
  public:
    using kept = std::conditional_t<
        std::is_void_v<Value>, nothing,
        std::conditional_t<std::is_reference_v<Value>, std::remove_reference_t<Value> *, Value>>;

    template <class From> void give(From &&from, place at) {
        lock_guard<mutex> held(guard, at);
        if (is_given) throw future_error(future_errc::promise_already_satisfied);
        value.emplace(std::forward<From>(from));
        end(at);
    }
    void fail(std::exception_ptr with, place at) {
        lock_guard<mutex> held(guard, at);
        if (is_given) throw future_error(future_errc::promise_already_satisfied);
        error = std::move(with);
        end(at);
    }
    /* Of a promise that is destroyed. */
    void leave(place at) {
        lock_guard<mutex> held(guard, at);
        if (is_given) return;
        error = std::make_exception_ptr(future_error(future_errc::broken_promise));
        end(at);
    }
    /* Waits, or calls what was put off. */
    void wait(place at) {
        std::function<void()> call;
        {
            lock_guard<mutex> held(guard, at);
            call.swap(deferred);
        }
        if (call) call();
        unique_lock<mutex> held(guard, at);
        while (!is_given) changed.wait(held, at);
    }
    bool is_deferred(place at) {
        lock_guard<mutex> held(guard, at);
        return static_cast<bool>(deferred);
    }
    kept &get(place at) {
        wait(at);
        if (error) std::rethrow_exception(error);
        return *value;
    }
    ~given() {
        if (worker.joinable()) worker.join(place::unknown());
    }
    thread worker; /* of async */
    void defer(std::function<void()> call) { deferred = std::move(call); }
    bool take_future() { return !std::exchange(has_future, true); }

  private:
    mutex guard;
    condition_variable changed;
    std::optional<kept> value;
    std::exception_ptr error;
    std::function<void()> deferred;
    bool is_given = false, has_future = false;

    void end(place at) {
        is_given = true;
        changed.notify_all(at);
    }
};

template <class Value> using shared_given = std::shared_ptr<given<Value>>;

/* Calls a function, and gives what it returns or throws. */
template <class Value, class Function> void give_call(given<Value> &to, Function &&function) {
    try {
        if constexpr (std::is_void_v<Value>) {
            function();
            to.give(nothing{}, place::unknown());
        } else if constexpr (std::is_reference_v<Value>)
            to.give(&function(), place::unknown());
        else
            to.give(function(), place::unknown());
    } catch (...) {
        to.fail(std::current_exception(), place::unknown());
    }
}

/* What both kinds of futures have. */
template <class Value> class waiting {
  protected:
    shared_given<Value> from;
    explicit waiting(shared_given<Value> given) : from(std::move(given)) {}
    void demand_valid() const {
        if (!from) throw future_error(future_errc::no_state);
    }

  public:
    waiting() noexcept = default;
    bool valid() const noexcept { return from != nullptr; }
    void wait(place at = place::here()) const {
        demand_valid();
        from->wait(at);
    }
    template <class Time> future_status wait_for(const Time &, place at = place::here()) const {
        demand_valid();
        if (from->is_deferred(at)) return future_status::deferred;
        return from->wait(at), future_status::ready;
    }
    template <class Time>
    future_status wait_until(const Time &time, place at = place::here()) const {
        return wait_for(time, at);
    }
};
} // namespace detail

template <class Value> class shared_future;

template <class Value> class future : public detail::waiting<Value> {
    friend class shared_future<Value>;

  public:
    future() noexcept = default;
    explicit future(detail::shared_given<Value> given) : detail::waiting<Value>(std::move(given)) {}
    future(future &&) noexcept = default;
    future &operator=(future &&) noexcept = default;
    Value get(place at = place::here()) {
        this->demand_valid();
        auto from = std::move(this->from);
        if constexpr (std::is_void_v<Value>)
            from->get(at);
        else if constexpr (std::is_reference_v<Value>)
            return *from->get(at);
        else
            return std::move(from->get(at));
    }
    shared_future<Value> share() noexcept { return shared_future<Value>(std::move(*this)); }
};

template <class Value> class shared_future : public detail::waiting<Value> {
  public:
    shared_future() noexcept = default;
    shared_future(future<Value> &&other) noexcept : detail::waiting<Value>(std::move(other.from)) {}
    decltype(auto) get(place at = place::here()) const {
        this->demand_valid();
        auto &kept = this->from->get(at);
        if constexpr (std::is_void_v<Value>)
            return static_cast<void>(kept);
        else if constexpr (std::is_reference_v<Value>)
            return static_cast<Value>(*kept);
        else
            return static_cast<const Value &>(kept);
    }
};

template <class Value> class promise {
    detail::shared_given<Value> to = std::make_shared<detail::given<Value>>();
    void demand_valid() const {
        if (!to) throw future_error(future_errc::no_state);
    }

  public:
    promise() = default;
    promise(promise &&) noexcept = default;
    promise &operator=(promise &&other) noexcept {
        promise(std::move(other)).swap(*this);
        return *this;
    }
    ~promise() {
        if (to && to.use_count() > 1) to->leave(place::unknown());
    }
    void swap(promise &other) noexcept { to.swap(other.to); }
    future<Value> get_future() {
        demand_valid();
        if (!to->take_future()) throw future_error(future_errc::future_already_retrieved);
        return future<Value>(to);
    }
    /* Of void it takes no value. */
    template <class Void = Value>
    std::enable_if_t<std::is_void_v<Void>> set_value(place at = place::here()) {
        demand_valid();
        to->give(detail::nothing{}, at);
    }
    template <class From, class Given = Value>
    std::enable_if_t<!std::is_void_v<Given>> set_value(From &&from, place at = place::here()) {
        demand_valid();
        if constexpr (std::is_reference_v<Value>)
            to->give(&from, at);
        else
            to->give(std::forward<From>(from), at);
    }
    void set_exception(std::exception_ptr error, place at = place::here()) {
        demand_valid();
        to->fail(std::move(error), at);
    }
};

template <class Signature> class packaged_task;

template <class Value, class... Arguments> class packaged_task<Value(Arguments...)> {
    struct call_base {
        virtual ~call_base() = default;
        virtual Value call(Arguments... arguments) = 0;
    };
    template <class Function> struct call_of final : call_base {
        Function function;
        explicit call_of(Function &&given) : function(std::move(given)) {}
        Value call(Arguments... arguments) override {
            return std::invoke(function, std::forward<Arguments>(arguments)...);
        }
    };
    std::unique_ptr<call_base> task;
    detail::shared_given<Value> to;

  public:
    packaged_task() noexcept = default;
    template <class Function,
              class = std::enable_if_t<!std::is_same_v<std::decay_t<Function>, packaged_task>>>
    explicit packaged_task(Function &&function)
        : task(std::make_unique<call_of<std::decay_t<Function>>>(
              std::decay_t<Function>(std::forward<Function>(function)))),
          to(std::make_shared<detail::given<Value>>()) {}
    packaged_task(packaged_task &&) noexcept = default;
    packaged_task &operator=(packaged_task &&other) noexcept {
        packaged_task(std::move(other)).swap(*this);
        return *this;
    }
    ~packaged_task() {
        if (to && to.use_count() > 1) to->leave(place::unknown());
    }
    void swap(packaged_task &other) noexcept {
        task.swap(other.task);
        to.swap(other.to);
    }
    bool valid() const noexcept { return task != nullptr; }
    future<Value> get_future() {
        if (!to) throw future_error(future_errc::no_state);
        if (!to->take_future()) throw future_error(future_errc::future_already_retrieved);
        return future<Value>(to);
    }
    void operator()(Arguments... arguments) {
        if (!to) throw future_error(future_errc::no_state);
        detail::give_call(
            *to, [&]() -> Value { return task->call(std::forward<Arguments>(arguments)...); });
    }
    void reset() { to = std::make_shared<detail::given<Value>>(); }
};

/* A thread of its own, for which the future's last holder waits; or a call that is put off until
 * the value is asked for. */
template <class Function, class... Arguments>
auto async(launch how, Function &&function, Arguments &&...arguments) {
    using Value = std::invoke_result_t<std::decay_t<Function>, std::decay_t<Arguments>...>;
    auto to = std::make_shared<detail::given<Value>>();
    auto parts = std::make_shared<std::tuple<std::decay_t<Function>, std::decay_t<Arguments>...>>(
        std::forward<Function>(function), std::forward<Arguments>(arguments)...);
    auto run = [to = to.get(), parts] {
        detail::give_call(*to, [&]() -> Value {
            return std::apply(
                [](auto &...them) -> Value { return std::invoke(std::move(them)...); }, *parts);
        });
    };
    if ((how & launch::async) == launch::async)
        to->worker = thread(run);
    else
        to->defer(run);
    return future<Value>(to);
}
template <class Function, class... Arguments,
          class = std::enable_if_t<!std::is_same_v<std::decay_t<Function>, launch>>>
auto async(Function &&function, Arguments &&...arguments) {
    return pct::async(launch::async, std::forward<Function>(function),
                      std::forward<Arguments>(arguments)...);
}

} // namespace pct
#endif
