/*
 * Mutexes, spin locks, read-write locks and stdio's locks, each a mutex or a read-write lock of the
 * book. The book has 64 of each: one that nobody holds or waits for gives its place back.
 */
#include "stand.h"

#include <errno.h>
#include <stdio.h>

typedef struct Lock {
    const volatile void *at;
    uint32_t holds, waiters, owner, depth; /* holds: of readers, or 1 */
    bool is_written;
} Lock;
static Lock mutexes[MOST_SEATS], rwlocks[MOST_SEATS];

/* Of pthread_mutex_t. */
enum {
    NORMAL = PTHREAD_MUTEX_NORMAL,
    RECURSIVE = PTHREAD_MUTEX_RECURSIVE,
    CHECKING = PTHREAD_MUTEX_ERRORCHECK
};

static uint32_t place_of(Lock *locks, const volatile void *at) {
    uint32_t spare = NOBODY;
    for (uint32_t i = 0; i < MOST_SEATS; i++) {
        if (locks[i].at == at) return i;
        bool is_free = locks[i].holds == 0 && locks[i].waiters == 0;
        if (is_free && (spare == NOBODY || (locks[spare].at && !locks[i].at))) spare = i;
    }
    if (spare == NOBODY)
        end_run(REFUSED, "more than %d locks are held or waited for at once", MOST_SEATS);
    locks[spare] = (Lock){ .at = at, .owner = NOBODY };
    return spare;
}

static bool is_mine(const Lock *lock) { return lock->holds && lock->owner == (uint32_t)self.seat; }

void locks_held(uint32_t seat, uintptr_t *held, size_t most) {
    size_t count = 0;
    for (uint32_t i = 0; i < MOST_SEATS && count < most; i++)
        if (mutexes[i].holds && mutexes[i].owner == seat) held[count++] = (uintptr_t)mutexes[i].at;
}

/* Once more by its owner: of a recursive lock and of one that checks. */
static int lock_again(Lock *lock, unsigned kind, bool is_try, const char *what) {
    step(what, lock->at);
    if (kind == CHECKING) return is_try ? EBUSY : EDEADLK;
    lock->depth++;
    return 0;
}

int lock_at(const volatile void *at, unsigned kind, bool is_try, const char *what) {
    give_way(); /* before the place is chosen: another lock may have it afterwards */
    uint32_t place = place_of(mutexes, at);
    Lock *lock = &mutexes[place];
    if (is_mine(lock) && (kind == RECURSIVE || kind == CHECKING))
        return lock_again(lock, kind, is_try, what);
    lock->waiters++;
    int64_t is_got = ask(is_try ? PCT_ASK_TRY_LOCK : PCT_ASK_LOCK, place, what, at);
    lock->waiters--;
    if (is_try && !is_got) {
        looked(0, 3);
        return EBUSY;
    }
    lock->holds = lock->depth = 1;
    lock->owner = (uint32_t)self.seat;
    acquire(at);
    return 0;
}

/* Looks, and waits for an unlock or the time. */
int lock_until(const volatile void *at, unsigned kind, const struct timespec *until,
               clockid_t clock, const char *what) {
    Lock *lock = &mutexes[place_of(mutexes, at)];
    if (is_mine(lock))
        return kind == RECURSIVE || kind == CHECKING ? lock_again(lock, kind, false, what)
                                                     : EDEADLK;
    for (;;) {
        give_way();
        uint32_t place = place_of(mutexes, at);
        mutexes[place].waiters++;
        int64_t is_got = ask(PCT_ASK_TRY_LOCK, place, what, at);
        mutexes[place].waiters--;
        if (is_got) {
            mutexes[place].holds = mutexes[place].depth = 1;
            mutexes[place].owner = (uint32_t)self.seat;
            acquire(at);
            return 0;
        }
        begin_wait(WAITS_FOR_TIME, at);
        wait_until(deadline_of(until, clock));
        if (finish_wait("waits for a lock", at)) return ETIMEDOUT;
    }
}

/* Threads that looked whether it is free, and those that wait for a time. */
void tell_unlocked(const volatile void *at) {
    if (waiter_at(at, 0) != NOBODY) wake_all(at, "the lock is free for");
    let_look();
}

int unlock_at(const volatile void *at, unsigned kind, const char *what) {
    uint32_t place = place_of(mutexes, at);
    Lock *lock = &mutexes[place];
    if (kind == CHECKING && !is_mine(lock)) return EPERM;
    if (kind == RECURSIVE && !is_mine(lock)) return EPERM;
    if (is_mine(lock) && lock->depth > 1) {
        lock->depth--;
        return 0;
    }
    release(at);
    lock->waiters++; /* until its step is taken, nobody else has the place */
    ask(PCT_ASK_UNLOCK, place, what, at);
    lock->waiters--;
    lock->holds = lock->depth = 0;
    lock->owner = NOBODY;
    return 0;
}

uint32_t let_go(const volatile void *at, const char *what) {
    Lock *lock = &mutexes[place_of(mutexes, at)];
    uint32_t depth = lock->depth;
    lock->depth = 1;
    unlock_at(at, NORMAL, what);
    return depth;
}

void regain(const volatile void *at, uint32_t depth, const char *what) {
    lock_at(at, NORMAL, false, what);
    mutexes[place_of(mutexes, at)].depth = depth;
}

void forget_lock(const volatile void *at) {
    for (Lock *lock = mutexes; lock < mutexes + MOST_SEATS; lock++)
        if (lock->at == at && !lock->holds && !lock->waiters) lock->at = NULL;
}

/* --- Mutexes --- */

static unsigned kind_of(const pthread_mutex_t *mutex) {
    return (unsigned)mutex->__data.__kind & 3U;
}

EXPORT int pthread_mutex_lock(pthread_mutex_t *mutex) {
    ENTER();
    return is_tested() ? lock_at(mutex, kind_of(mutex), false, "lock")
                       : REAL(pthread_mutex_lock)(mutex);
}
EXPORT int pthread_mutex_trylock(pthread_mutex_t *mutex) {
    ENTER();
    return is_tested() ? lock_at(mutex, kind_of(mutex), true, "trylock")
                       : REAL(pthread_mutex_trylock)(mutex);
}
EXPORT int pthread_mutex_timedlock(pthread_mutex_t *mutex, const struct timespec *until) {
    ENTER();
    if (!is_tested()) return REAL(pthread_mutex_timedlock)(mutex, until);
    return lock_until(mutex, kind_of(mutex), until, CLOCK_REALTIME, "timedlock");
}
EXPORT int pthread_mutex_clocklock(pthread_mutex_t *mutex, clockid_t clock,
                                   const struct timespec *until) {
    ENTER();
    if (!is_tested()) return REAL(pthread_mutex_clocklock)(mutex, clock, until);
    return lock_until(mutex, kind_of(mutex), until, clock, "clocklock");
}
EXPORT int pthread_mutex_unlock(pthread_mutex_t *mutex) {
    ENTER();
    if (!is_tested()) return REAL(pthread_mutex_unlock)(mutex);
    int refused = unlock_at(mutex, kind_of(mutex), "unlock");
    if (!refused) tell_unlocked(mutex);
    return refused;
}
EXPORT int pthread_mutex_destroy(pthread_mutex_t *mutex) {
    if (is_tested()) forget_lock(mutex);
    return REAL(pthread_mutex_destroy)(mutex);
}

EXPORT int pthread_spin_init(pthread_spinlock_t *lock, int is_shared) {
    if (is_tested()) forget_lock(lock);
    return REAL(pthread_spin_init)(lock, is_shared);
}
EXPORT int pthread_spin_lock(pthread_spinlock_t *lock) {
    ENTER();
    return is_tested() ? lock_at(lock, NORMAL, false, "spin lock") : REAL(pthread_spin_lock)(lock);
}
EXPORT int pthread_spin_trylock(pthread_spinlock_t *lock) {
    ENTER();
    return is_tested() ? lock_at(lock, NORMAL, true, "spin trylock")
                       : REAL(pthread_spin_trylock)(lock);
}
EXPORT int pthread_spin_unlock(pthread_spinlock_t *lock) {
    ENTER();
    if (!is_tested()) return REAL(pthread_spin_unlock)(lock);
    unlock_at(lock, NORMAL, "spin unlock");
    tell_unlocked(lock);
    return 0;
}

/* --- Read-write locks: readers are let in though a writer waits --- */

static int got_rwlock(Lock *lock, const volatile void *at, bool is_writer) {
    lock->holds++;
    lock->is_written = is_writer;
    if (is_writer) lock->owner = (uint32_t)self.seat;
    acquire(at);
    return 0;
}

static int rwlock_at(const volatile void *at, uint32_t kind, const char *what) {
    give_way();
    uint32_t place = place_of(rwlocks, at);
    Lock *lock = &rwlocks[place];
    bool is_try = kind == PCT_ASK_TRY_RD_LOCK || kind == PCT_ASK_TRY_WR_LOCK;
    if (!is_try && lock->is_written && is_mine(lock)) return EDEADLK;
    lock->waiters++;
    int64_t is_got = ask(kind, place, what, at);
    lock->waiters--;
    if (is_try && !is_got) {
        looked(0, 3);
        return EBUSY;
    }
    return got_rwlock(lock, at, kind == PCT_ASK_WR_LOCK || kind == PCT_ASK_TRY_WR_LOCK);
}

static int rwlock_until(const volatile void *at, uint32_t kind, const struct timespec *until,
                        clockid_t clock, const char *what) {
    for (;;) {
        give_way();
        uint32_t place = place_of(rwlocks, at);
        Lock *lock = &rwlocks[place];
        if (lock->is_written && is_mine(lock)) return EDEADLK;
        lock->waiters++;
        int64_t is_got = ask(kind, place, what, at);
        lock->waiters--;
        if (is_got) return got_rwlock(lock, at, kind == PCT_ASK_TRY_WR_LOCK);
        begin_wait(WAITS_FOR_TIME, at);
        wait_until(deadline_of(until, clock));
        if (finish_wait("waits for a read-write lock", at)) return ETIMEDOUT;
    }
}

static int rwlock_unlock(const volatile void *at) {
    uint32_t place = place_of(rwlocks, at);
    Lock *lock = &rwlocks[place];
    release(at);
    lock->waiters++;
    ask(PCT_ASK_RW_UNLOCK, place, "rwlock unlock", at);
    lock->waiters--;
    if (lock->holds) lock->holds--;
    lock->is_written = false;
    tell_unlocked(at);
    return 0;
}

#define RWLOCK(name, kind)                                                                     \
    EXPORT int pthread_rwlock_##name(pthread_rwlock_t *lock) {                                 \
        ENTER();                                                                               \
        return is_tested() ? rwlock_at(lock, kind, #name) : REAL(pthread_rwlock_##name)(lock); \
    }
#define TIMED_RWLOCK(name, kind)                                                                  \
    EXPORT int pthread_rwlock_timed##name(pthread_rwlock_t *lock, const struct timespec *until) { \
        ENTER();                                                                                  \
        return is_tested() ? rwlock_until(lock, kind, until, CLOCK_REALTIME, "timed" #name)       \
                           : REAL(pthread_rwlock_timed##name)(lock, until);                       \
    }                                                                                             \
    EXPORT int pthread_rwlock_clock##name(pthread_rwlock_t *lock, clockid_t clock,                \
                                          const struct timespec *until) {                         \
        ENTER();                                                                                  \
        return is_tested() ? rwlock_until(lock, kind, until, clock, "clock" #name)                \
                           : REAL(pthread_rwlock_clock##name)(lock, clock, until);                \
    }
RWLOCK(rdlock, PCT_ASK_RD_LOCK)
RWLOCK(wrlock, PCT_ASK_WR_LOCK)
RWLOCK(tryrdlock, PCT_ASK_TRY_RD_LOCK)
RWLOCK(trywrlock, PCT_ASK_TRY_WR_LOCK)
TIMED_RWLOCK(rdlock, PCT_ASK_TRY_RD_LOCK)
TIMED_RWLOCK(wrlock, PCT_ASK_TRY_WR_LOCK)
EXPORT int pthread_rwlock_unlock(pthread_rwlock_t *lock) {
    ENTER();
    return is_tested() ? rwlock_unlock(lock) : REAL(pthread_rwlock_unlock)(lock);
}

/* --- stdio's own locks, held by the program over steps: libc's would make a thread wait for real
 * --- */

EXPORT void flockfile(FILE *file) {
    ENTER();
    if (is_tested()) lock_at(file, RECURSIVE, false, "flockfile");
    else REAL(flockfile)(file);
}
EXPORT int ftrylockfile(FILE *file) {
    ENTER();
    return is_tested() ? lock_at(file, RECURSIVE, true, "ftrylockfile") : REAL(ftrylockfile)(file);
}
EXPORT void funlockfile(FILE *file) {
    ENTER();
    if (!is_tested()) REAL(funlockfile)(file);
    else if (!unlock_at(file, RECURSIVE, "funlockfile")) tell_unlocked(file);
}
