/* Part of pct_test.c: memory that is freed, whose next use is that of new variables. */

#define SANITIZED __SANITIZE_ADDRESS__ || __SANITIZE_THREAD__
#ifdef __has_feature
#undef SANITIZED
#define SANITIZED \
    __has_feature(address_sanitizer) || __has_feature(thread_sanitizer) || \
        __has_feature(memory_sanitizer)
#endif

/* Who is about to use this memory in a step does it after it was freed. */
static void forget_freed(const volatile void *at, size_t bytes) {
    for (uint32_t i = 0; i < run->threads; i++) {
        Late *late = &run->seats[i].late;
        bool is_about = late->state == BROUGHT || late->state == POSTED;
        bool is_in = is_access(late) && (uintptr_t)late->at - (uintptr_t)at < bytes;
        if (is_about && is_in) late->is_freed = true;
    }
    forget(at, bytes);
}

/* Only who has the baton may look, and no process that it has forked; the layer's own blocks have
   no variables. */
static bool is_in_run(void) {
    return own_seat && child.runs && !child.is_forked && run->many[PCT_VARIABLES];
}

#pragma weak dlsym

/* The next function of a name in the order of the libraries. */
static void *next_function(const char *name) { return dlsym ? dlsym(RTLD_NEXT, name) : NULL; }

#if SANITIZED

int __sanitizer_install_malloc_and_free_hooks(void (*)(const volatile void *, size_t),
                                              void (*)(const volatile void *));
size_t __sanitizer_get_allocated_size(const volatile void *);

static void see_nothing(const volatile void *block, size_t bytes) { (void)block, (void)bytes; }

static void see_free(const volatile void *block) {
    if (block && is_in_run()) forget_freed(block, __sanitizer_get_allocated_size(block));
}

static void __attribute__((constructor)) watch_frees(void) {
    __sanitizer_install_malloc_and_free_hooks(see_nothing, see_free);
}

#elif !defined PCT_NO_FREE

/* The program's free and realloc are these, which tell the layer before they call those that would
   have been called: a sanitizer's, where the test is linked with one; those of the C library; or
   where another library has malloc the next ones in the order of the libraries. Since dlsym and
   dlerror free, too, it is asked only there. */
void __interceptor_free(void *) __attribute__((weak));
void *__interceptor_realloc(void *, size_t) __attribute__((weak));
void *__libc_malloc(size_t) __attribute__((weak));
void __libc_free(void *) __attribute__((weak));
void *__libc_realloc(void *, size_t) __attribute__((weak));

typedef void Free(void *);
typedef void *Realloc(void *, size_t);

static void *function_behind(const char *name, void *sanitizers, void *libcs) {
    bool is_libcs = libcs && (void *)malloc == (void *)__libc_malloc;
    return sanitizers ? sanitizers : is_libcs ? libcs : next_function(name);
}

void free(void *block) {
    static Free *next;
    if (!next)
        next = (Free *)function_behind("free", (void *)__interceptor_free, (void *)__libc_free);
    if (block && is_in_run()) forget_freed(block, malloc_usable_size(block));
    if (next) next(block);
}

void *realloc(void *block, size_t bytes) {
    static Realloc *next;
    bool is_seen = block && is_in_run();
    size_t had = is_seen ? malloc_usable_size(block) : 0;
    if (!next)
        next = (Realloc *)function_behind("realloc", (void *)__interceptor_realloc,
                                          (void *)__libc_realloc);
    void *now = next ? next(block, bytes) : NULL;
    if (is_seen && now != block && (now || !bytes)) forget_freed(block, had);
    return now;
}

#endif
