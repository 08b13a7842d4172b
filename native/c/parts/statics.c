/* Part of pct_test.c: function-local statics of C++. Who comes to one first constructs it, and the
   others wait for that: by steps on a mutex, so that the constructor may have steps, too. They are
   weak since clang's thread sanitizer has its own. */

int __cxa_guard_acquire(uint64_t *guard) __attribute__((weak));
void __cxa_guard_release(uint64_t *guard) __attribute__((weak));
void __cxa_guard_abort(uint64_t *guard) __attribute__((weak));

#define MOST_STATICS 64 /* that are constructed at a time */

typedef struct Static {
    uint64_t *guard; /* its first byte tells that it was constructed */
    uint32_t users;  /* threads that construct it or wait for that */
    pct_mutex_t mutex;
} Static;

static const PctPlace at_static = { NULL, 0, "static" };

static bool is_constructed(uint64_t *guard) {
    return __atomic_load_n((const char *)guard, __ATOMIC_ACQUIRE);
}

/* The static of a guard, or a free one. */
static Static *static_of(uint64_t *guard) {
    static Static statics[MOST_STATICS];
    Static *unused = NULL;
    for (Static *it = statics; it < statics + MOST_STATICS; it++) {
        if (it->guard == guard) return it;
        if (!it->guard) unused = it;
    }
    if (!unused) sentence("more than %d function-local statics at a time", MOST_STATICS);
    *unused = (Static){ guard, 0, PCT_MUTEX_INITIALIZER };
    return unused;
}

/* The C++ library's own functions, outside of a run. */
static int call_next(const char *name, uint64_t *guard) {
    typedef int Call(uint64_t *);
    Call *next = (Call *)next_function(name);
    if (next) return next(guard);
    if (strcmp(name, "__cxa_guard_release") == 0)
        __atomic_store_n((char *)guard, 1, __ATOMIC_RELEASE);
    return !is_constructed(guard);
}

/* Lets a static go. */
static void leave_static(Static *it) {
    pct_mutex_at(&it->mutex, PCT_ASK_UNLOCK, at_static);
    if (--it->users > 0) return;
    pct_mutex_destroy(&it->mutex);
    it->guard = NULL;
}

int __cxa_guard_acquire(uint64_t *guard) {
    if (is_constructed(guard)) return 0;
    if (!own_seat) return call_next("__cxa_guard_acquire", guard);
    Static *it = static_of(guard);
    it->users++;
    pct_mutex_at(&it->mutex, PCT_ASK_LOCK, at_static);
    if (!is_constructed(guard)) return 1;
    leave_static(it);
    return 0;
}

void __cxa_guard_abort(uint64_t *guard) {
    if (!own_seat)
        call_next("__cxa_guard_abort", guard);
    else
        leave_static(static_of(guard));
}

void __cxa_guard_release(uint64_t *guard) {
    if (!own_seat) {
        call_next("__cxa_guard_release", guard);
        return;
    }
    __atomic_store_n((char *)guard, 1, __ATOMIC_RELEASE);
    __cxa_guard_abort(guard);
}
