/*
 * Part of pct_test.hpp: guards that carry the place. A guard's unlock has the place at which it
 * locked.
 */
#ifndef PCT_TEST_GUARDS_HPP
#define PCT_TEST_GUARDS_HPP

#include "place.hpp"

#include <cstddef>
#include <mutex>
#include <system_error>
#include <tuple>
#include <utility>

namespace pct {

template <class Mutex> class lock_guard {
    Mutex &held;
    place at;

  public:
    using mutex_type = Mutex;
    explicit lock_guard(Mutex &mutex, place here = place::here()) : held(mutex), at(here) {
        held.lock(at);
    }
    lock_guard(Mutex &mutex, std::adopt_lock_t, place here = place::here())
        : held(mutex), at(here) {}
    ~lock_guard() { held.unlock(at); }
    lock_guard(const lock_guard &) = delete;
    lock_guard &operator=(const lock_guard &) = delete;
};

namespace detail {
struct exclusive {
    template <class Mutex> static void lock(Mutex &mutex, place at) { mutex.lock(at); }
    template <class Mutex> static bool try_lock(Mutex &mutex, place at) {
        return mutex.try_lock(at);
    }
    template <class Mutex> static void unlock(Mutex &mutex, place at) { mutex.unlock(at); }
};
struct shared {
    template <class Mutex> static void lock(Mutex &mutex, place at) { mutex.lock_shared(at); }
    template <class Mutex> static bool try_lock(Mutex &mutex, place at) {
        return mutex.try_lock_shared(at);
    }
    template <class Mutex> static void unlock(Mutex &mutex, place at) { mutex.unlock_shared(at); }
};

template <class Mutex, class How> class movable_lock {
    Mutex *held = nullptr;
    bool owns = false;
    place at{ nullptr, 0 };

    void demand_free() const {
        if (!held)
            throw std::system_error(std::make_error_code(std::errc::operation_not_permitted));
        if (owns)
            throw std::system_error(std::make_error_code(std::errc::resource_deadlock_would_occur));
    }

  public:
    using mutex_type = Mutex;
    movable_lock() noexcept = default;
    explicit movable_lock(Mutex &mutex, place here = place::here()) : held(&mutex), at(here) {
        lock(at);
    }
    movable_lock(Mutex &mutex, std::defer_lock_t, place here = place::here()) noexcept
        : held(&mutex), at(here) {}
    movable_lock(Mutex &mutex, std::try_to_lock_t, place here = place::here())
        : held(&mutex), at(here) {
        try_lock(at);
    }
    movable_lock(Mutex &mutex, std::adopt_lock_t, place here = place::here())
        : held(&mutex), owns(true), at(here) {}
    movable_lock(movable_lock &&other) noexcept { swap(other); }
    movable_lock &operator=(movable_lock &&other) noexcept {
        movable_lock(std::move(other)).swap(*this);
        return *this;
    }
    ~movable_lock() {
        if (owns) How::unlock(*held, at);
    }
    void lock(place here = place::here()) {
        demand_free();
        at = here;
        How::lock(*held, at);
        owns = true;
    }
    bool try_lock(place here = place::here()) {
        demand_free();
        at = here;
        return owns = How::try_lock(*held, at);
    }
    void unlock(place here = place::here()) {
        if (!owns)
            throw std::system_error(std::make_error_code(std::errc::operation_not_permitted));
        owns = false;
        How::unlock(*held, here);
    }
    void swap(movable_lock &other) noexcept {
        std::swap(held, other.held);
        std::swap(owns, other.owns);
        std::swap(at, other.at);
    }
    Mutex *release() noexcept {
        owns = false;
        return std::exchange(held, nullptr);
    }
    bool owns_lock() const noexcept { return owns; }
    explicit operator bool() const noexcept { return owns; }
    Mutex *mutex() const noexcept { return held; }
};
} // namespace detail

template <class Mutex> class unique_lock : public detail::movable_lock<Mutex, detail::exclusive> {
    using base = detail::movable_lock<Mutex, detail::exclusive>;

  public:
    unique_lock() noexcept = default;
    explicit unique_lock(Mutex &mutex, place at = place::here()) : base(mutex, at) {}
    template <class Tag>
    unique_lock(Mutex &mutex, Tag tag, place at = place::here()) : base(mutex, tag, at) {}
};

template <class Mutex> class shared_lock : public detail::movable_lock<Mutex, detail::shared> {
    using base = detail::movable_lock<Mutex, detail::shared>;

  public:
    shared_lock() noexcept = default;
    explicit shared_lock(Mutex &mutex, place at = place::here()) : base(mutex, at) {}
    template <class Tag>
    shared_lock(Mutex &mutex, Tag tag, place at = place::here()) : base(mutex, tag, at) {}
};

namespace detail {
/* Takes all or none: the one of this place, for which it waits, and then tries the others. */
template <class... Mutexes, std::size_t... Places>
bool take_from(std::size_t first, place at, std::index_sequence<Places...>,
               const std::tuple<Mutexes &...> &held) {
    const std::size_t many = sizeof...(Mutexes);
    bool taken[sizeof...(Mutexes)] = {};
    bool all = true;
    for (std::size_t step = 0; step < many && all; step++) {
        std::size_t which = (first + step) % many;
        bool got = false;
        ((Places == which ? (got = step == 0 ? (std::get<Places>(held).lock(at), true)
                                             : std::get<Places>(held).try_lock(at))
                          : false),
         ...);
        taken[which] = all = got;
    }
    if (!all) ((taken[Places] ? std::get<Places>(held).unlock(at) : void()), ...);
    return all;
}

template <class... Mutexes> void lock_all(place at, const std::tuple<Mutexes &...> &held) {
    std::size_t first = 0;
    if constexpr (sizeof...(Mutexes) > 0)
        while (!take_from(first, at, std::index_sequence_for<Mutexes...>{}, held)) first++;
}
} // namespace detail

/* As std::lock: it waits for one, tries the others, and lets all go where one can't be taken. */
template <class First, class Second, class... Others>
void lock(First &first, Second &second, Others &...others) {
    detail::lock_all(place::unknown(), std::tie(first, second, others...));
}

/* -1, or the place of the one that can't be taken: then none is. */
template <class First, class... Others> int try_lock(First &first, Others &...others) {
    if (!first.try_lock(place::unknown())) return 0;
    int failed = -1;
    if constexpr (sizeof...(Others) > 0) failed = pct::try_lock(others...);
    if (failed < 0) return -1;
    first.unlock(place::unknown());
    return failed + 1;
}

template <class... Mutexes> class scoped_lock {
    std::tuple<Mutexes &...> held;
    place at;

  public:
    explicit scoped_lock(Mutexes &...mutexes, place here = place::here())
        : held(mutexes...), at(here) {
        detail::lock_all(at, held);
    }
    explicit scoped_lock(std::adopt_lock_t, Mutexes &...mutexes, place here = place::here())
        : held(mutexes...), at(here) {}
    ~scoped_lock() {
        std::apply([this](auto &...mutexes) { (mutexes.unlock(at), ...); }, held);
    }
    scoped_lock(const scoped_lock &) = delete;
    scoped_lock &operator=(const scoped_lock &) = delete;
};
template <class... Mutexes> scoped_lock(Mutexes &...) -> scoped_lock<Mutexes...>;
template <class... Mutexes> scoped_lock(std::adopt_lock_t, Mutexes &...) -> scoped_lock<Mutexes...>;

} // namespace pct
#endif
