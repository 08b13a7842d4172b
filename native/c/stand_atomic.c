/*
 * Atomics: each is a step, and its order says what happens before what. Outside of a run it is what
 * it stands for, at the strongest order.
 */
#include "stand.h"

typedef unsigned __int128 uint128_t;

static void before(const volatile void *at, const char *what) {
    if (is_tested()) step(what, at);
}

typedef struct Effect {
    bool is_load, is_store, is_same; /* is_same: it leaves the value as it was */
} Effect;

static void after(const volatile void *at, size_t size, Effect effect, uint64_t value, int order) {
    if (!is_tested()) return;
    if (shared->plan.plain != PLAIN_OFF) {
        touch((uintptr_t)at, size, ACCESS_ATOMIC | (effect.is_store ? ACCESS_WRITE : ACCESS_READ),
              self.pc);
        if (effect.is_load) load_clock(at, order);
        if (effect.is_store) store_clock(at, order, effect.is_load);
    }
    note_value(value);
    if (effect.is_store && !effect.is_same) changed();
    else looked(value, 3);
}

/* A weak exchange may fail, by --chaos. */
static bool fails_by_chance(void) {
    return is_tested() && shared->plan.is_chaotic && draw_below(8) == 0;
}

#define ORDER __ATOMIC_SEQ_CST
#define EXCHANGE(bits, name, operation, result)                                           \
    EXPORT uint##bits##_t __tsan_atomic##bits##_##name(volatile uint##bits##_t *at,       \
                                                       uint##bits##_t value, int order) { \
        ENTER();                                                                          \
        before(at, "atomic " #name);                                                      \
        uint##bits##_t old = operation(at, value, ORDER);                                 \
        after(at, bits / 8, (Effect){ true, true, old == (uint##bits##_t)(result) },      \
              (uint64_t)old, order);                                                      \
        return old;                                                                       \
    }
#define COMPARE(bits, name, is_weak, result, type, expected_type, expected_at)                  \
    EXPORT type __tsan_atomic##bits##_compare_exchange_##name(                                  \
        volatile uint##bits##_t *at, expected_type expected, uint##bits##_t value, int order,   \
        int failing) {                                                                          \
        ENTER();                                                                                \
        before(at, "atomic compare_exchange");                                                  \
        uint##bits##_t old = *(expected_at);                                                    \
        bool is_done = false;                                                                   \
        if (is_weak && fails_by_chance()) old = __atomic_load_n(at, ORDER);                     \
        else is_done = __atomic_compare_exchange_n(at, &old, value, false, ORDER, ORDER);       \
        after(at, bits / 8, (Effect){ true, is_done, !is_done || old == value }, (uint64_t)old, \
              is_done ? order : failing);                                                       \
        if (!is_done) *(expected_at) = old;                                                     \
        return result;                                                                          \
    }
#define ATOMICS(bits)                                                                          \
    EXPORT uint##bits##_t __tsan_atomic##bits##_load(const volatile uint##bits##_t *at,        \
                                                     int order) {                              \
        ENTER();                                                                               \
        before(at, "atomic load");                                                             \
        uint##bits##_t value = __atomic_load_n(at, ORDER);                                     \
        after(at, bits / 8, (Effect){ true, false, true }, (uint64_t)value, order);            \
        return value;                                                                          \
    }                                                                                          \
    EXPORT void __tsan_atomic##bits##_store(volatile uint##bits##_t *at, uint##bits##_t value, \
                                            int order) {                                       \
        ENTER();                                                                               \
        before(at, "atomic store");                                                            \
        uint##bits##_t old = __atomic_exchange_n(at, value, ORDER);                            \
        after(at, bits / 8, (Effect){ false, true, old == value }, (uint64_t)value, order);    \
    }                                                                                          \
    EXCHANGE(bits, exchange, __atomic_exchange_n, value)                                       \
    EXCHANGE(bits, fetch_add, __atomic_fetch_add, old + value)                                 \
    EXCHANGE(bits, fetch_sub, __atomic_fetch_sub, old - value)                                 \
    EXCHANGE(bits, fetch_and, __atomic_fetch_and, old &value)                                  \
    EXCHANGE(bits, fetch_or, __atomic_fetch_or, old | value)                                   \
    EXCHANGE(bits, fetch_xor, __atomic_fetch_xor, old ^ value)                                 \
    EXCHANGE(bits, fetch_nand, __atomic_fetch_nand, ~(old & value))                            \
    COMPARE(bits, strong, false, is_done, int, uint##bits##_t *, expected)                     \
    COMPARE(bits, weak, true, is_done, int, uint##bits##_t *, expected)                        \
    COMPARE(bits, val, false, old, uint##bits##_t, uint##bits##_t, &expected)
ATOMICS(8)
ATOMICS(16)
ATOMICS(32)
ATOMICS(64)

/* Of sixteen bytes: by the one instruction that there is for them. */
#ifdef __GCC_HAVE_SYNC_COMPARE_AND_SWAP_16
static uint128_t update(volatile uint128_t *at, uint128_t expected, uint128_t value) {
    return __sync_val_compare_and_swap(at, expected, value);
}
#define EXCHANGE_128(name, result)                                                                 \
    EXPORT uint128_t __tsan_atomic128_##name(volatile uint128_t *at, uint128_t value, int order) { \
        ENTER();                                                                                   \
        before(at, "atomic " #name);                                                               \
        uint128_t old = update(at, 0, 0), seen;                                                    \
        while ((seen = update(at, old, (result))) != old) old = seen;                              \
        after(at, 16, (Effect){ true, true, old == (result) }, (uint64_t)old, order);              \
        return old;                                                                                \
    }
EXCHANGE_128(exchange, value)
EXCHANGE_128(fetch_add, old + value)
EXCHANGE_128(fetch_sub, old - value)
EXCHANGE_128(fetch_and, old &value)
EXCHANGE_128(fetch_or, old | value)
EXCHANGE_128(fetch_xor, old ^ value)
EXCHANGE_128(fetch_nand, ~(old &value))
EXPORT uint128_t __tsan_atomic128_load(const volatile uint128_t *at, int order) {
    ENTER();
    before(at, "atomic load");
    uint128_t value = update((volatile uint128_t *)at, 0, 0);
    after(at, 16, (Effect){ true, false, true }, (uint64_t)value, order);
    return value;
}
EXPORT void __tsan_atomic128_store(volatile uint128_t *at, uint128_t value, int order) {
    ENTER();
    before(at, "atomic store");
    uint128_t old = update(at, 0, 0), seen;
    while ((seen = update(at, old, value)) != old) old = seen;
    after(at, 16, (Effect){ false, true, old == value }, (uint64_t)value, order);
}
static bool compare_128(volatile uint128_t *at, uint128_t *expected, uint128_t value, int order,
                        int failing) {
    before(at, "atomic compare_exchange");
    uint128_t old = update(at, *expected, value);
    bool is_done = old == *expected;
    after(at, 16, (Effect){ true, is_done, !is_done || old == value }, (uint64_t)old,
          is_done ? order : failing);
    *expected = old;
    return is_done;
}
#define COMPARE_128(name)                                                                       \
    EXPORT int __tsan_atomic128_compare_exchange_##name(                                        \
        volatile uint128_t *at, uint128_t *expected, uint128_t value, int order, int failing) { \
        ENTER();                                                                                \
        return compare_128(at, expected, value, order, failing);                                \
    }
COMPARE_128(strong)
COMPARE_128(weak)
EXPORT uint128_t __tsan_atomic128_compare_exchange_val(volatile uint128_t *at, uint128_t expected,
                                                       uint128_t value, int order, int failing) {
    ENTER();
    compare_128(at, &expected, value, order, failing);
    return expected;
}
#endif

EXPORT void __tsan_atomic_thread_fence(int order) {
    ENTER();
    if (!is_tested()) {
        __atomic_thread_fence(ORDER);
        return;
    }
    step("fence", NULL);
    fence_clock(order);
}
EXPORT void __tsan_atomic_signal_fence(int order) { (void)order; }
