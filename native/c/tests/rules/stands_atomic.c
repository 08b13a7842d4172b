// A file that knows nothing of pct: compiled with -include pct_stdatomic.h and -include pct_threads.h.
#include <stdatomic.h>
#include <stdbool.h>
#include <threads.h>

static atomic_int count;
static atomic_bool is_open;
static _Atomic short small;
static _Atomic(unsigned long) wide;
static int *_Atomic pointer;
static atomic_flag flag = ATOMIC_FLAG_INIT;
static mtx_t guard;
static cnd_t changed;
static once_flag once = ONCE_FLAG_INIT;
static int made;

static void make(void) {
    mtx_init(&guard, mtx_plain);
    cnd_init(&changed);
    atomic_init(&count, 0);
    atomic_store(&is_open, false);
    atomic_store_explicit(&small, 0, memory_order_relaxed);
    atomic_store(&wide, 0);
    made++;
}

static int grow(void *by) {
    call_once(&once, make);
    while (atomic_flag_test_and_set(&flag))
        thrd_yield();
    int seen = atomic_load_explicit(&count, memory_order_acquire);
    while (!atomic_compare_exchange_weak(&count, &seen, seen + *(int *)by))
        continue;
    atomic_flag_clear(&flag);
    atomic_fetch_sub(&small, 1);
    atomic_fetch_or(&wide, 6);
    atomic_store(&pointer, (int *)by);
    mtx_lock(&guard);
    atomic_store(&is_open, true);
    cnd_broadcast(&changed);
    mtx_unlock(&guard);
    return *(int *)by;
}

/* What a test calls: whether all that was counted is there. */
int counts_all(void);
int counts_all(void) {
    thrd_t first, second;
    int two = 2, three = 3, got, other;
    call_once(&once, make);
    thrd_create(&first, grow, &two);
    thrd_create(&second, grow, &three);
    mtx_lock(&guard);
    while (!atomic_load(&is_open))
        cnd_wait(&changed, &guard);
    mtx_unlock(&guard);
    thrd_join(first, &got);
    thrd_join(second, &other);
    int *last = atomic_load(&pointer);
    return got == 2 && other == 3 && atomic_load(&count) == 5 && atomic_load(&small) == -2 &&
           atomic_exchange(&wide, 1) == 6 && (last == &two || last == &three);
}
