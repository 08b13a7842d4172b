/* Part of pct_test.c: what there is where the test is compiled with a sanitizer. A look at memory
   that the address sanitizer forbids is reported as its caller's, right after its step, by the
   thread that made it; the layer itself doesn't look there. */

void *__asan_region_is_poisoned(void *at, size_t bytes) __attribute__((weak));
void __asan_report_error(void *pc, void *frame, void *stack, void *at, int is_write, size_t bytes)
    __attribute__((weak));
void __sanitizer_set_death_callback(void (*callback)(void)) __attribute__((weak));
void __sanitizer_report_error_summary(const char *summary);

static bool is_forbidden(void *at, size_t bytes) {
    return __asan_region_is_poisoned && __asan_region_is_poisoned(at, bytes) != NULL;
}

static void report_forbidden(const Late *late, void *caller, void *frame) {
    if (__asan_report_error)
        __asan_report_error(caller, frame, frame, late->at, late->access != PCT_LOAD,
                            late->form & 15);
}

static void mark_sanitized(void) { shared->is_sanitized = true; }

/* The first two words of a sanitizer's last line are kept: SUMMARY: AddressSanitizer:
   heap-use-after-free .. It is this function that prints that line. */
void __sanitizer_report_error_summary(const char *summary) {
    const char *from = strncmp(summary, "SUMMARY: ", 9) == 0 ? summary + 9 : summary;
    fprintf(stderr, "%s\n", summary);
    if (!shared || !child.runs) return;
    const char *space = strchr(from, ' '), *end = space ? strchr(space + 1, ' ') : NULL;
    snprintf(shared->summary, sizeof shared->summary, "%.*s",
             end ? (int)(end - from) : (int)strcspn(from, "\n"), from);
}
