/*
 * Tests of C code with threads under the PCT scheduler. A test includes this header, calls what
 * stands here in place of POSIX threads, and compiles pct_test.c in:
 *
 *     cc -std=c11 test.c pct_test.c -lpct -pthread
 *
 * Each call on something shared is a step. Which thread takes the next one is chosen by the
 * library; real threads run, one at a time. All between two steps of a thread is atomic. Results
 * are those of POSIX: 0, or a number of <errno.h>; of semaphores 0, or -1 and errno. The calls of
 * threads, mutexes, conditions, semaphores, barriers and read-write locks have the form of the
 * pthread_ or sem_ call of their name. A timed form never times out. C++ has pct_test.hpp over
 * this. docs/c.md says more.
 */
#ifndef PCT_TEST_H
#define PCT_TEST_H

#include <pct.h>

#include <errno.h>
#include <pthread.h>
#include <time.h>

#ifdef __cplusplus
extern "C" {
#endif

/* Where a call stands, and how its object is called there. Where the file is NULL, it is that of
   the thread's last step. */
typedef struct PctPlace {
    const char *file;
    int line;
    const char *name;
} PctPlace;

#ifdef __cplusplus
#define PCT_OF(name) (PctPlace{ __FILE__, __LINE__, #name })
#else
#define PCT_OF(name) ((PctPlace){ __FILE__, __LINE__, #name })
#endif

/* --- The test --- */

/* Takes the words of main: --test NAME, --seeds N, --depth D, --from SEED, --replay FILE, --find,
   --certify, --lanes, --trace FILE, --json FILE, --campaign, --traces FILE, --isolate, --threads N,
   --steps K, --limit STEPS, --patience SECONDS, --help. A word that it doesn't know, and a test that
   isn't there, end the program with 1. */
void pct_options(int count, char **words);

/* This is called before each run, outside of it: it puts globals back. */
void pct_reset(void (*reset)(void));

/* Runs a test: 0 where no run failed, or where another test is asked for, else 1. What is tested is
   a function whose run creates threads, or `count` threads with their names and functions, which
   are numbered from 0. The test is called as that function, or the list of functions, is. */
int pct_check_at(void (*test)(void), PctPlace place);
int pct_threads_at(unsigned count, const char *const *names, void (*const *functions)(void),
                   PctPlace place);
#define pct_check(test) pct_check_at((test), PCT_OF(test))
#define pct_threads(count, names, functions) \
    pct_threads_at((count), (names), (functions), PCT_OF(functions))

/* The name of an object or a variable in traces, from its next run on; it is kept by its address.
   Without one it is called as its first step calls it. */
void pct_name(const volatile void *at, const char *name);

/* A step that fails the run where the condition doesn't hold. */
void pct_check_step(bool holds, PctPlace place);
#define PCT_CHECK(condition) pct_check_step((condition) ? true : false, PCT_OF(condition))

/* A step that touches nothing. */
void pct_step_at(PctPlace place);
#define pct_step() pct_step_at(PCT_OF())

/* For loops that look again and again: waits until another thread's step has changed something. */
void pct_yield_at(PctPlace place);
#define pct_yield() pct_yield_at(PCT_OF())

/* For sleeps: a step that touches nothing; and from the sixth on in which nobody, the thread itself
   neither, has changed something, as pct_yield, so that a loop which looks and sleeps doesn't go on
   alone. */
void pct_sleep_at(PctPlace place);
#define pct_sleep() pct_sleep_at(PCT_OF())

/* Both, as what answers 0: as POSIX has them. */
static inline int pct_yielded_at(PctPlace place) {
    pct_yield_at(place);
    return 0;
}
static inline int pct_slept_at(PctPlace place) {
    pct_sleep_at(place);
    return 0;
}

/* --- Threads --- */

typedef unsigned pct_thread_t;

int pct_create_at(pct_thread_t *thread, const pthread_attr_t *attr, void *(*function)(void *),
                  void *argument, PctPlace place);
int pct_join_at(pct_thread_t thread, void **value, PctPlace place);
int pct_detach_at(pct_thread_t thread, PctPlace place);
pct_thread_t pct_self(void);
void pct_exit(void *value) __attribute__((noreturn));
#define pct_create(thread, attr, function, argument) \
    pct_create_at((thread), (attr), (function), (argument), PCT_OF(function))
#define pct_join(thread, value) pct_join_at((thread), (value), PCT_OF(thread))
#define pct_detach(thread) pct_detach_at((thread), PCT_OF(thread))

/* --- Objects: what is common to all. They begin each run as they were initialized --- */

typedef enum PctKind {
    PCT_THREADS,
    PCT_VARIABLES,
    PCT_MUTEXES,
    PCT_CONDITIONS,
    PCT_SEMAPHORES,
    PCT_BARRIERS,
    PCT_RWLOCKS,
    PCT_KINDS
} PctKind;

/* Its number in a run, and the first value of a semaphore or a barrier. */
typedef struct PctObject {
    uint64_t id;
    int64_t first;
} PctObject;

#define PCT_OBJECT(first) \
    { 0, (first) }

/* Makes it a new object: 0, or EINVAL where the first value isn't from `least` to `most`. */
int pct_object_init(PctObject *object, int64_t first, int64_t least, int64_t most);
int pct_object_destroy(PctKind kind, PctObject *object);

/* One step on it: 0, or where a try form didn't get it EBUSY, and EAGAIN of a semaphore. */
int pct_object_at(PctKind kind, PctObject *object, PctAskKind ask, PctPlace place);

/* --- Mutexes --- */

enum { PCT_MUTEX_NORMAL, PCT_MUTEX_RECURSIVE, PCT_MUTEX_ERRORCHECK };

typedef struct pct_mutex_t {
    PctObject object;
    uint32_t kind, owner, depth;
} pct_mutex_t;

#define PCT_MUTEX_INITIALIZER \
    { PCT_OBJECT(0), PCT_MUTEX_NORMAL, 0, 0 }
#define PCT_RECURSIVE_MUTEX_INITIALIZER \
    { PCT_OBJECT(0), PCT_MUTEX_RECURSIVE, 0, 0 }
#define PCT_ERRORCHECK_MUTEX_INITIALIZER \
    { PCT_OBJECT(0), PCT_MUTEX_ERRORCHECK, 0, 0 }

/* The attributes are a pthread_mutexattr_t's address, of which the type is looked at, or NULL; or
   the kind itself. */
int pct_mutex_init(pct_mutex_t *mutex, int kind);
int pct_mutex_init_by(pct_mutex_t *mutex, const pthread_mutexattr_t *attributes);
int pct_mutex_destroy(pct_mutex_t *mutex);
int pct_mutex_at(pct_mutex_t *mutex, PctAskKind ask, PctPlace place);
#define pct_mutex_lock(mutex) pct_mutex_at((mutex), PCT_ASK_LOCK, PCT_OF(mutex))
#define pct_mutex_trylock(mutex) pct_mutex_at((mutex), PCT_ASK_TRY_LOCK, PCT_OF(mutex))
#define pct_mutex_timedlock(mutex, until) ((void)(until), pct_mutex_lock(mutex))
#define pct_mutex_unlock(mutex) pct_mutex_at((mutex), PCT_ASK_UNLOCK, PCT_OF(mutex))

/* --- Conditions: a signal wakes who has waited longest, and no wait ends by itself --- */

typedef struct pct_cond_t {
    PctObject object;
} pct_cond_t;

#define PCT_COND_INITIALIZER \
    { PCT_OBJECT(0) }

#define pct_cond_at(cond, ask, place) pct_object_at(PCT_CONDITIONS, &(cond)->object, (ask), (place))
int pct_cond_wait_at(pct_cond_t *cond, pct_mutex_t *mutex, PctPlace place, const char *mutex_name);
#define pct_cond_init(cond, attr) ((void)(attr), pct_object_init(&(cond)->object, 0, 0, 0))
#define pct_cond_destroy(cond) pct_object_destroy(PCT_CONDITIONS, &(cond)->object)
#define pct_cond_wait(cond, mutex) pct_cond_wait_at((cond), (mutex), PCT_OF(cond), #mutex)
#define pct_cond_timedwait(cond, mutex, until) \
    ((void)(until), pct_cond_wait_at((cond), (mutex), PCT_OF(cond), #mutex))
#define pct_cond_signal(cond) pct_cond_at((cond), PCT_ASK_SIGNAL, PCT_OF(cond))
#define pct_cond_broadcast(cond) pct_cond_at((cond), PCT_ASK_BROADCAST, PCT_OF(cond))

/* --- Semaphores --- */

typedef struct pct_sem_t {
    PctObject object;
} pct_sem_t;

#define PCT_SEM_INITIALIZER(value) \
    { PCT_OBJECT(value) }

/* 0, or -1 and errno. */
int pct_by_errno(int refused);
int pct_sem_getvalue_at(pct_sem_t *sem, int *value, PctPlace place);
#define pct_sem_at(sem, ask, place) \
    pct_by_errno(pct_object_at(PCT_SEMAPHORES, &(sem)->object, (ask), (place)))
#define pct_sem_init(sem, is_shared, value) \
    ((void)(is_shared), pct_by_errno(pct_object_init(&(sem)->object, (value), 0, INT32_MAX)))
#define pct_sem_destroy(sem) pct_object_destroy(PCT_SEMAPHORES, &(sem)->object)
#define pct_sem_wait(sem) pct_sem_at((sem), PCT_ASK_DOWN, PCT_OF(sem))
#define pct_sem_trywait(sem) pct_sem_at((sem), PCT_ASK_TRY_DOWN, PCT_OF(sem))
#define pct_sem_timedwait(sem, until) ((void)(until), pct_sem_wait(sem))
#define pct_sem_post(sem) pct_sem_at((sem), PCT_ASK_UP, PCT_OF(sem))
#define pct_sem_getvalue(sem, value) pct_sem_getvalue_at((sem), (value), PCT_OF(sem))

/* --- Barriers, of 1 to 1000 threads --- */

typedef struct pct_barrier_t {
    PctObject object;
} pct_barrier_t;

#define PCT_BARRIER_INITIALIZER(count) \
    { PCT_OBJECT(count) }
#define PCT_BARRIER_SERIAL_THREAD (-1)

int pct_barrier_wait_at(pct_barrier_t *barrier, PctPlace place);
#define pct_barrier_init(barrier, attr, count) \
    ((void)(attr), pct_object_init(&(barrier)->object, (count), 1, 1000))
#define pct_barrier_destroy(barrier) pct_object_destroy(PCT_BARRIERS, &(barrier)->object)
#define pct_barrier_wait(barrier) pct_barrier_wait_at((barrier), PCT_OF(barrier))

/* --- Read-write locks: readers are let in though a writer waits --- */

typedef struct pct_rwlock_t {
    PctObject object;
} pct_rwlock_t;

#define PCT_RWLOCK_INITIALIZER \
    { PCT_OBJECT(0) }

#define pct_rwlock_at(lock, ask, place) pct_object_at(PCT_RWLOCKS, &(lock)->object, (ask), (place))
#define pct_rwlock_init(lock, attr) ((void)(attr), pct_object_init(&(lock)->object, 0, 0, 0))
#define pct_rwlock_destroy(lock) pct_object_destroy(PCT_RWLOCKS, &(lock)->object)
#define pct_rwlock_rdlock(lock) pct_rwlock_at((lock), PCT_ASK_RD_LOCK, PCT_OF(lock))
#define pct_rwlock_wrlock(lock) pct_rwlock_at((lock), PCT_ASK_WR_LOCK, PCT_OF(lock))
#define pct_rwlock_tryrdlock(lock) pct_rwlock_at((lock), PCT_ASK_TRY_RD_LOCK, PCT_OF(lock))
#define pct_rwlock_trywrlock(lock) pct_rwlock_at((lock), PCT_ASK_TRY_WR_LOCK, PCT_OF(lock))
#define pct_rwlock_timedrdlock(lock, until) ((void)(until), pct_rwlock_rdlock(lock))
#define pct_rwlock_timedwrlock(lock, until) ((void)(until), pct_rwlock_wrlock(lock))
#define pct_rwlock_unlock(lock) pct_rwlock_at((lock), PCT_ASK_RW_UNLOCK, PCT_OF(lock))

/* --- Once in each run: by a mutex, two steps a call --- */

typedef struct pct_once_t {
    pct_mutex_t mutex;
    bool is_done;
} pct_once_t;

#define PCT_ONCE_INIT \
    { PCT_MUTEX_INITIALIZER, false }

int pct_once_at(pct_once_t *once, void (*function)(void), PctPlace place);
/* Its halves: whether the caller is to do it, which is left in any case, and whether it was done.
 */
bool pct_once_enter_at(pct_once_t *once, PctPlace place);
int pct_once_leave_at(pct_once_t *once, bool is_done, PctPlace place);
#define pct_once(once, function) pct_once_at((once), (function), PCT_OF(once))

/* --- Variables: any _Bool, char, short, int, long, long long, their unsigned forms, and pointers.
   A variable is its address --- */

/* PCT_PLAIN and PCT_WAKE are the layer's own. */
typedef enum PctAccess {
    PCT_PLAIN,
    PCT_LOAD,
    PCT_STORE,
    PCT_ADD,
    PCT_CAS,
    PCT_EXCHANGE,
    PCT_AND,
    PCT_OR,
    PCT_XOR,
    PCT_WAKE
} PctAccess;

enum { PCT_UNSIGNED = 16, PCT_POINTER = 32 };

/* A step on the memory at an address, and its value before the step. The form is its bytes, 1, 2, 4
   or 8, and what is above. The values are x, and of PCT_CAS what is expected, x, and y. */
int64_t pct_access(PctAccess access, volatile void *at, unsigned form, int64_t x, int64_t y,
                   PctPlace place);

/* As of PCT_CAS: whether it was exchanged. */
bool pct_cas_at(volatile void *at, unsigned form, int64_t expected, int64_t value, PctPlace place);

/* As of PCT_CAS, where `expected` holds the value, and gets the one that was there: whether it was
   exchanged. */
bool pct_compare_at(volatile void *at, unsigned form, void *expected, int64_t value,
                    PctPlace place);

/* What stood in this memory is gone: it was freed, say. Its next use is that of new variables. No
   step. */
void pct_forget(const volatile void *at, size_t bytes);

/* As below, of a variable of that form. */
int pct_wait_at(volatile void *at, unsigned form, int64_t value, PctPlace place);
int pct_wake_at(volatile void *at, unsigned most, PctPlace place);

/* Looks, and sleeps where the value is there, in one step: 0 once it is woken, or EAGAIN. Wakes at
   most so many, those who slept longest, and says how many. */
int pct_futex_wait_at(volatile uint32_t *at, uint32_t value, PctPlace place);
int pct_futex_wake_at(volatile uint32_t *at, unsigned most, PctPlace place);
#define pct_futex_wait(at, value) pct_futex_wait_at((at), (value), PCT_OF(at))
#define pct_futex_wake(at, most) pct_futex_wake_at((at), (most), PCT_OF(at))

#ifdef __cplusplus
}

static inline int pct_mutex_init(pct_mutex_t *mutex, const pthread_mutexattr_t *attributes) {
    return pct_mutex_init_by(mutex, attributes);
}
/* NULL is a number in C++. */
static inline int pct_mutex_init(pct_mutex_t *mutex, long kind) {
    return pct_mutex_init(mutex, (int)kind);
}
#else

#define pct_mutex_init(mutex, attributes) \
    _Generic((attributes), int \
             : (pct_mutex_init), default \
             : pct_mutex_init_by)((mutex), (attributes))

/* What X makes of the type that `at` points to: X(type, name) of numbers, and `pointer` else. */
#define PCT_BY_TYPE(at, X, pointer) \
    _Generic(*(at), _Bool \
             : X(_Bool, bool), char \
             : X(char, char), signed char \
             : X(signed char, signed_char), unsigned char \
             : X(unsigned char, unsigned_char), short \
             : X(short, short), unsigned short \
             : X(unsigned short, unsigned_short), int \
             : X(int, int), unsigned \
             : X(unsigned, unsigned), long \
             : X(long, long), unsigned long \
             : X(unsigned long, unsigned_long), long long \
             : X(long long, long_long), unsigned long long \
             : X(unsigned long long, unsigned_long_long), default \
             : pointer)

/* The form of what `at` points to; other sizes than 1, 2, 4 and 8 bytes are refused by the
   compiler. */
#define PCT_IS_SIZE(bytes) ((bytes) == 1 || (bytes) == 2 || (bytes) == 4 || (bytes) == 8)
#define PCT_SIGN(type, name) ((type)-1 < (type)1 ? 0U : (unsigned)PCT_UNSIGNED)
#define PCT_FORM(at) \
    ((unsigned)(sizeof *(at) / sizeof(char[PCT_IS_SIZE(sizeof *(at)) ? 1 : -1])) | \
     PCT_BY_TYPE(at, PCT_SIGN, (unsigned)PCT_POINTER))

/* A value as one of the type that `at` points to; of pointers as a void *. */
#define PCT_AS(type, name) \
    static inline type pct_as_##name(int64_t value) { return (type)value; }
PCT_AS(_Bool, bool)
PCT_AS(char, char)
PCT_AS(signed char, signed_char)
PCT_AS(unsigned char, unsigned_char)
PCT_AS(short, short)
PCT_AS(unsigned short, unsigned_short)
PCT_AS(int, int)
PCT_AS(unsigned, unsigned)
PCT_AS(long, long)
PCT_AS(unsigned long, unsigned_long)
PCT_AS(long long, long_long)
PCT_AS(unsigned long long, unsigned_long_long)
static inline void *pct_as_pointer(int64_t value) { return (void *)(intptr_t)value; }
#undef PCT_AS
#define PCT_AS_NAME(type, name) pct_as_##name
#define PCT_VALUE(at, value) PCT_BY_TYPE(at, PCT_AS_NAME, pct_as_pointer)(value)

static inline int64_t pct_bits(int64_t value) { return value; }
#define PCT_BITS(at, value) \
    _Generic(*(at), _Bool : pct_as_bool, default : pct_bits)((int64_t)(intptr_t)(value))
#define PCT_ACCESS(access, at, x, y) \
    pct_access((access), (at), PCT_FORM(at), PCT_BITS(at, x), PCT_BITS(at, y), PCT_OF(at))

#define pct_load(at) PCT_VALUE(at, PCT_ACCESS(PCT_LOAD, at, 0, 0))
#define pct_store(at, value) ((void)PCT_ACCESS(PCT_STORE, at, value, 0))
/* The old value. */
#define pct_add(at, value) PCT_VALUE(at, PCT_ACCESS(PCT_ADD, at, value, 0))
#define pct_exchange(at, value) PCT_VALUE(at, PCT_ACCESS(PCT_EXCHANGE, at, value, 0))
/* The old value; it was exchanged where that is `expected`. */
#define pct_cas_value(at, expected, value) PCT_VALUE(at, PCT_ACCESS(PCT_CAS, at, expected, value))
/* Whether it was exchanged. */
#define pct_cas(at, expected, value) \
    pct_cas_at((at), PCT_FORM(at), PCT_BITS(at, expected), PCT_BITS(at, value), PCT_OF(at))

#endif
#endif
