// Operations on variables of each width at its extremes, and what C gives for them.
#define _XOPEN_SOURCE 700
#include "pct_test.h"
#include <limits.h>
#include <stdlib.h>

// A failed assertion that is no step: the process dies.
#define SAME(a, b) ((a) == (b) ? (void)0 : abort())

#define USE(type, least, most) \
    do { \
        static type v; \
        pct_store(&v, most); \
        SAME(pct_add(&v, 1), most); \
        SAME(pct_load(&v), least); \
        SAME(pct_add(&v, -1), least); \
        SAME(v, most); \
        SAME(pct_exchange(&v, least), most); \
        SAME(pct_cas(&v, most, 5), false); \
        SAME(pct_cas(&v, least, most), true); \
        SAME(pct_cas_value(&v, most, 7), most); \
        SAME(pct_cas_value(&v, most, 9), 7); \
        SAME(v, 7); \
    } while (0)

static void Integers(void) {
    USE(char, CHAR_MIN, CHAR_MAX);
    USE(signed char, SCHAR_MIN, SCHAR_MAX);
    USE(unsigned char, 0, UCHAR_MAX);
    USE(short, SHRT_MIN, SHRT_MAX);
    USE(unsigned short, 0, USHRT_MAX);
    USE(int, INT_MIN, INT_MAX);
    USE(unsigned, 0u, UINT_MAX);
    USE(long, LONG_MIN, LONG_MAX);
    USE(unsigned long, 0ul, ULONG_MAX);
    USE(long long, LLONG_MIN, LLONG_MAX);
    USE(unsigned long long, 0ull, ULLONG_MAX);
    USE(volatile int, INT_MIN, INT_MAX);
}

// A _Bool has the value 1 where something else than 0 is stored.
static void Truths(void) {
    static _Bool v;
    pct_store(&v, 256);
    SAME(pct_load(&v), true);
    SAME(pct_exchange(&v, 0), true);
    SAME(pct_cas(&v, false, true), true);
    SAME(v, true);
}

// NULL, attributes and kinds.
static void Mutexes(void) {
    static pct_mutex_t mutex;
    pthread_mutexattr_t attributes;
    SAME(pct_mutex_init(&mutex, NULL), 0);
    SAME(pct_mutex_lock(&mutex), 0);
    SAME(pct_mutex_trylock(&mutex), EBUSY);
    SAME(pct_mutex_unlock(&mutex), 0);
    pthread_mutexattr_init(&attributes);
    pthread_mutexattr_settype(&attributes, PTHREAD_MUTEX_RECURSIVE);
    SAME(pct_mutex_init(&mutex, &attributes), 0);
    SAME(pct_mutex_lock(&mutex) || pct_mutex_lock(&mutex), 0);
    SAME(pct_mutex_unlock(&mutex) || pct_mutex_unlock(&mutex), 0);
    pthread_mutexattr_settype(&attributes, PTHREAD_MUTEX_ERRORCHECK);
    SAME(pct_mutex_init(&mutex, &attributes), 0);
    SAME(pct_mutex_unlock(&mutex), EPERM);
    SAME(pct_mutex_init(&mutex, PCT_MUTEX_RECURSIVE), 0);
    SAME(pct_mutex_init(&mutex, 3), EINVAL);
    pthread_mutexattr_destroy(&attributes);
}

static void Pointers(void) {
    static int cells[2], *at;
    pct_store(&at, cells);
    SAME(pct_load(&at), (void *)cells);
    SAME(pct_exchange(&at, &cells[1]), (void *)cells);
    SAME(pct_cas(&at, &cells[1], NULL), true);
    SAME(pct_cas(&at, &cells[1], NULL), false);
    SAME(pct_load(&at), NULL);
    PCT_CHECK(!at);
}

int main(int count, char **words) {
    static const char *const names[] = { "Integers", "Truths", "Mutexes", "Pointers" };
    static void (*const functions[])(void) = { Integers, Truths, Mutexes, Pointers };
    pct_options(count, words);
    return pct_threads(4, names, functions);
}
