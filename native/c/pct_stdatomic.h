/*
 * C11's <stdatomic.h> as it stands under the PCT scheduler: a file that uses it is compiled with
 *
 *     cc -include pct_stdatomic.h -c queue.c
 *
 * and each of its calls is a step. Orders are taken, and all mean the sequentially consistent one.
 * An operator on an atomic, as in `count++`, makes no step: where another thread has touched it,
 * the next step there says that it was changed without one.
 */
#ifndef PCT_STDATOMIC_H
#define PCT_STDATOMIC_H

#include <stdatomic.h>

#include "pct_test.h"

#undef atomic_init
#define atomic_init(at, value) \
    (pct_forget((const volatile void *)(at), sizeof *(at)), (void)(*(at) = (value)))
#undef atomic_is_lock_free
#define atomic_is_lock_free(at) ((void)(at), true)
#undef atomic_thread_fence
#define atomic_thread_fence(order) ((void)(order))
#undef atomic_signal_fence
#define atomic_signal_fence(order) ((void)(order))

#define PCT_ATOMIC(access, at, x) \
    PCT_VALUE(at, pct_access((access), (volatile void *)(at), PCT_FORM(at), PCT_BITS(at, x), 0, \
                             PCT_OF(at)))

#undef atomic_load
#define atomic_load(at) PCT_ATOMIC(PCT_LOAD, at, 0)
#undef atomic_load_explicit
#define atomic_load_explicit(at, order) ((void)(order), atomic_load(at))
#undef atomic_store
#define atomic_store(at, value) ((void)PCT_ATOMIC(PCT_STORE, at, value))
#undef atomic_store_explicit
#define atomic_store_explicit(at, value, order) ((void)(order), atomic_store(at, value))
#undef atomic_exchange
#define atomic_exchange(at, value) PCT_ATOMIC(PCT_EXCHANGE, at, value)
#undef atomic_exchange_explicit
#define atomic_exchange_explicit(at, value, order) ((void)(order), atomic_exchange(at, value))
#undef atomic_fetch_add
#define atomic_fetch_add(at, by) PCT_ATOMIC(PCT_ADD, at, by)
#undef atomic_fetch_add_explicit
#define atomic_fetch_add_explicit(at, by, order) ((void)(order), atomic_fetch_add(at, by))
#undef atomic_fetch_sub
#define atomic_fetch_sub(at, by) \
    PCT_VALUE(at, pct_access(PCT_ADD, (volatile void *)(at), PCT_FORM(at), \
                             (int64_t)(0 - (uint64_t)PCT_BITS(at, by)), 0, PCT_OF(at)))
#undef atomic_fetch_sub_explicit
#define atomic_fetch_sub_explicit(at, by, order) ((void)(order), atomic_fetch_sub(at, by))
#undef atomic_fetch_and
#define atomic_fetch_and(at, by) PCT_ATOMIC(PCT_AND, at, by)
#undef atomic_fetch_and_explicit
#define atomic_fetch_and_explicit(at, by, order) ((void)(order), atomic_fetch_and(at, by))
#undef atomic_fetch_or
#define atomic_fetch_or(at, by) PCT_ATOMIC(PCT_OR, at, by)
#undef atomic_fetch_or_explicit
#define atomic_fetch_or_explicit(at, by, order) ((void)(order), atomic_fetch_or(at, by))
#undef atomic_fetch_xor
#define atomic_fetch_xor(at, by) PCT_ATOMIC(PCT_XOR, at, by)
#undef atomic_fetch_xor_explicit
#define atomic_fetch_xor_explicit(at, by, order) ((void)(order), atomic_fetch_xor(at, by))
#undef atomic_compare_exchange_strong
#define atomic_compare_exchange_strong(at, expected, value) \
    pct_compare_at((volatile void *)(at), PCT_FORM(at), (void *)(expected), PCT_BITS(at, value), \
                   PCT_OF(at))
#undef atomic_compare_exchange_strong_explicit
#define atomic_compare_exchange_strong_explicit(at, expected, value, done, failed) \
    ((void)(done), (void)(failed), atomic_compare_exchange_strong(at, expected, value))
#undef atomic_compare_exchange_weak
#define atomic_compare_exchange_weak(at, expected, value) \
    atomic_compare_exchange_strong(at, expected, value)
#undef atomic_compare_exchange_weak_explicit
#define atomic_compare_exchange_weak_explicit(at, expected, value, done, failed) \
    atomic_compare_exchange_strong_explicit(at, expected, value, done, failed)

#undef atomic_flag
#undef ATOMIC_FLAG_INIT
#define atomic_flag pct_atomic_flag
#define ATOMIC_FLAG_INIT \
    { false }
typedef struct pct_atomic_flag {
    bool is_set;
} pct_atomic_flag;
#undef atomic_flag_test_and_set
#define atomic_flag_test_and_set(flag) pct_exchange(&(flag)->is_set, true)
#undef atomic_flag_test_and_set_explicit
#define atomic_flag_test_and_set_explicit(flag, order) \
    ((void)(order), atomic_flag_test_and_set(flag))
#undef atomic_flag_clear
#define atomic_flag_clear(flag) pct_store(&(flag)->is_set, false)
#undef atomic_flag_clear_explicit
#define atomic_flag_clear_explicit(flag, order) ((void)(order), atomic_flag_clear(flag))

#endif
