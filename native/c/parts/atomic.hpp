/*
 * Part of pct_test.hpp: atomics of what has 1, 2, 4 or 8 bytes and may be copied as bytes;
 * references to what isn't atomic by itself; flags; fences, which need nothing, since all steps are
 * sequentially consistent.
 */
#ifndef PCT_TEST_ATOMIC_HPP
#define PCT_TEST_ATOMIC_HPP

#include "place.hpp"

#include <atomic>
#include <climits>
#include <cstddef>
#include <cstring>
#include <type_traits>

namespace pct {

using std::memory_order;
using std::memory_order_acq_rel;
using std::memory_order_acquire;
using std::memory_order_consume;
using std::memory_order_relaxed;
using std::memory_order_release;
using std::memory_order_seq_cst;

namespace detail {
/* How a value stands in a step. */
template <class Value> struct coded {
    static constexpr std::size_t size = sizeof(Value);
    static_assert(std::is_trivially_copyable_v<Value> &&
                      (size == 1 || size == 2 || size == 4 || size == 8),
                  "pct::atomic is of what may be copied as 1, 2, 4 or 8 bytes");
    static constexpr bool is_signed = std::is_integral_v<Value> && std::is_signed_v<Value>;
    static constexpr unsigned form =
        unsigned(size) | (std::is_pointer_v<Value> ? unsigned(PCT_POINTER)
                                                   : (is_signed ? 0u : unsigned(PCT_UNSIGNED)));
    static int64_t of(const Value &value) {
        if constexpr (std::is_integral_v<Value>) return static_cast<int64_t>(value);
        int64_t bits = 0;
        std::memcpy(&bits, &value, size);
        return bits;
    }
    static Value from(int64_t bits) {
        std::remove_const_t<Value> value;
        std::memcpy(static_cast<void *>(&value), &bits, size);
        return value;
    }
};

/* What an atomic and a reference have in common. Self has the address of the value, as at(). */
template <class Value, class Self> class atomic_calls {
    using code = coded<Value>;

    void *memory() const {
        return const_cast<void *>(
            static_cast<const volatile void *>(static_cast<const Self *>(this)->address()));
    }
    Value step(PctAccess access, int64_t x, place at) const {
        return code::from(pct_access(access, memory(), code::form, x, 0, at.of("atomic")));
    }
    /* Integers wrap around, as std's do. */
    template <class By> static Value sum(Value value, By by) {
        if constexpr (std::is_integral_v<Value>)
            return static_cast<Value>(static_cast<uint64_t>(value) + static_cast<uint64_t>(by));
        else
            return value + by;
    }
    /* Numbers with a fraction are added by a loop, as processors do it. */
    template <class By> Value add(By by, place at) const {
        if constexpr (std::is_floating_point_v<Value>) {
            Value old = load(0, at);
            while (!compare_exchange_strong(old, old + by, 0, 0, at)) continue;
            return old;
        } else if constexpr (std::is_pointer_v<Value>) {
            constexpr auto bytes = static_cast<int64_t>(sizeof(std::remove_pointer_t<Value>));
            return step(PCT_ADD, static_cast<int64_t>(by) * bytes, at);
        } else
            return step(PCT_ADD, static_cast<int64_t>(by), at);
    }
    /* 0 - by, of which the least integer is its own. */
    template <class By> static auto minus(By by) {
        if constexpr (std::is_floating_point_v<By>)
            return -by;
        else
            return static_cast<int64_t>(0 - static_cast<uint64_t>(by));
    }

  public:
    using value_type = Value;
    using difference_type = std::conditional_t<std::is_pointer_v<Value>, std::ptrdiff_t, Value>;
    static constexpr bool is_always_lock_free = true;
    bool is_lock_free() const noexcept { return true; }
    const volatile void *key() const { return memory(); }

    template <class Order = int> Value load(Order = {}, place at = place::here()) const {
        return step(PCT_LOAD, 0, at);
    }
    template <class Order = int>
    void store(Value value, Order = {}, place at = place::here()) const {
        step(PCT_STORE, code::of(value), at);
    }
    template <class Order = int>
    Value exchange(Value value, Order = {}, place at = place::here()) const {
        return step(PCT_EXCHANGE, code::of(value), at);
    }
    template <class Order = int>
    Value fetch_add(difference_type by, Order = {}, place at = place::here()) const {
        return add(by, at);
    }
    template <class Order = int>
    Value fetch_sub(difference_type by, Order = {}, place at = place::here()) const {
        return add(minus(by), at);
    }
    template <class Order = int>
    Value fetch_and(Value by, Order = {}, place at = place::here()) const {
        return step(PCT_AND, code::of(by), at);
    }
    template <class Order = int>
    Value fetch_or(Value by, Order = {}, place at = place::here()) const {
        return step(PCT_OR, code::of(by), at);
    }
    template <class Order = int>
    Value fetch_xor(Value by, Order = {}, place at = place::here()) const {
        return step(PCT_XOR, code::of(by), at);
    }
    /* By the bytes, as std's. */
    template <class Order = int, class Failed = int>
    bool compare_exchange_strong(Value &expected, Value value, Order = {}, Failed = {},
                                 place at = place::here()) const {
        return pct_compare_at(memory(), code::form, &expected, code::of(value), at.of("atomic"));
    }
    /* It never fails without a reason. */
    template <class Order = int, class Failed = int>
    bool compare_exchange_weak(Value &expected, Value value, Order = {}, Failed = {},
                               place at = place::here()) const {
        return compare_exchange_strong(expected, value, 0, 0, at);
    }
    /* Waits as long as it has this value, and isn't told of another one. */
    template <class Order = int> void wait(Value old, Order = {}, place at = place::here()) const {
        while (pct_wait_at(memory(), code::form, code::of(old), at.of("atomic")) == 0) continue;
    }
    void notify_one(place at = place::here()) const { pct_wake_at(memory(), 1, at.of("atomic")); }
    void notify_all(place at = place::here()) const {
        pct_wake_at(memory(), UINT_MAX, at.of("atomic"));
    }

    operator Value() const { return load(0, place::unknown()); }
    Value operator++() const { return sum(add(1, place::unknown()), 1); }
    Value operator--() const { return sum(add(-1, place::unknown()), -1); }
    Value operator++(int) const { return add(1, place::unknown()); }
    Value operator--(int) const { return add(-1, place::unknown()); }
    Value operator+=(difference_type by) const { return sum(add(by, place::unknown()), by); }
    Value operator-=(difference_type by) const {
        return sum(add(minus(by), place::unknown()), minus(by));
    }
    Value operator&=(Value by) const { return fetch_and(by, 0, place::unknown()) & by; }
    Value operator|=(Value by) const { return fetch_or(by, 0, place::unknown()) | by; }
    Value operator^=(Value by) const { return fetch_xor(by, 0, place::unknown()) ^ by; }
};
} // namespace detail

template <class Value> class atomic : public detail::atomic_calls<Value, atomic<Value>> {
    Value inner{};

    /* What stood in its memory is gone. */
    constexpr void begin() const noexcept {
        if (!__builtin_is_constant_evaluated()) pct_forget(&inner, sizeof inner);
    }

  public:
    constexpr atomic() noexcept { begin(); }
    constexpr atomic(Value value) noexcept : inner(value) { begin(); }
    ~atomic() { pct_forget(&inner, sizeof inner); }
    atomic(const atomic &) = delete;
    atomic &operator=(const atomic &) = delete;
    const Value *address() const { return &inner; }
    Value operator=(Value value) { return this->store(value, 0, place::unknown()), value; }
};

/* Steps on a value that isn't atomic by itself; it is named by its address. */
template <class Value> class atomic_ref : public detail::atomic_calls<Value, atomic_ref<Value>> {
    Value *inner;

  public:
    static constexpr std::size_t required_alignment = alignof(Value);
    explicit atomic_ref(Value &value) : inner(&value) {}
    atomic_ref(const atomic_ref &) noexcept = default;
    atomic_ref &operator=(const atomic_ref &) = delete;
    Value *address() const { return inner; }
    Value operator=(Value value) const { return this->store(value, 0, place::unknown()), value; }
};

class atomic_flag {
    atomic<bool> inner{ false };

  public:
    constexpr atomic_flag() noexcept = default;
    constexpr atomic_flag(int) noexcept {} /* of ATOMIC_FLAG_INIT */
    const volatile void *key() const { return inner.key(); }
    template <class Order = int> bool test_and_set(Order = {}, place at = place::here()) {
        return inner.exchange(true, 0, at);
    }
    template <class Order = int> void clear(Order = {}, place at = place::here()) {
        inner.store(false, 0, at);
    }
    template <class Order = int> bool test(Order = {}, place at = place::here()) const {
        return inner.load(0, at);
    }
    template <class Order = int> void wait(bool old, Order = {}, place at = place::here()) const {
        inner.wait(old, 0, at);
    }
    void notify_one(place at = place::here()) { inner.notify_one(at); }
    void notify_all(place at = place::here()) { inner.notify_all(at); }
};

inline void atomic_thread_fence(memory_order) noexcept {}
inline void atomic_signal_fence(memory_order) noexcept {}

template <class Value> Value atomic_load(const atomic<Value> *from, place at = place::here()) {
    return from->load(0, at);
}
template <class Value>
void atomic_store(atomic<Value> *to, typename atomic<Value>::value_type value,
                  place at = place::here()) {
    to->store(value, 0, at);
}
template <class Value>
Value atomic_exchange(atomic<Value> *to, typename atomic<Value>::value_type value,
                      place at = place::here()) {
    return to->exchange(value, 0, at);
}
template <class Value>
Value atomic_fetch_add(atomic<Value> *to, typename atomic<Value>::difference_type by,
                       place at = place::here()) {
    return to->fetch_add(by, 0, at);
}
template <class Value>
Value atomic_fetch_sub(atomic<Value> *to, typename atomic<Value>::difference_type by,
                       place at = place::here()) {
    return to->fetch_sub(by, 0, at);
}

using atomic_bool = atomic<bool>;
using atomic_char = atomic<char>;
using atomic_int = atomic<int>;
using atomic_uint = atomic<unsigned>;
using atomic_long = atomic<long>;
using atomic_ulong = atomic<unsigned long>;
using atomic_llong = atomic<long long>;
using atomic_ullong = atomic<unsigned long long>;
using atomic_int32_t = atomic<int32_t>;
using atomic_uint32_t = atomic<uint32_t>;
using atomic_int64_t = atomic<int64_t>;
using atomic_uint64_t = atomic<uint64_t>;
using atomic_size_t = atomic<std::size_t>;
using atomic_ptrdiff_t = atomic<std::ptrdiff_t>;

} // namespace pct
#endif
