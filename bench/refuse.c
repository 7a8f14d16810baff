// A library that is loaded before the C library (LD_PRELOAD), and refuses memory: to the request of the
// number REFUSE, counted from 1, and with REFUSE_ALL to each later one too. It writes a byte to the file
// of the number REFUSE_TOLD for each. bench/memory-faults builds and uses it.
#include <errno.h>
#include <stddef.h>
#include <stdlib.h>
#include <unistd.h>

void *__libc_malloc(size_t size);
void *__libc_calloc(size_t count, size_t size);
void *__libc_realloc(void *old, size_t size);
void *__libc_memalign(size_t align, size_t size);

static long number(const char *name) {
    const char *text = getenv(name);
    return text ? strtol(text, NULL, 10) : 0;
}

static int is_refused(void) {
    static long requests;
    long first = number("REFUSE");
    requests++;
    if (first == 0 || requests < first || (requests > first && !getenv("REFUSE_ALL")))
        return 0;
    if (write(number("REFUSE_TOLD"), "x", 1) < 0)
        abort();
    errno = ENOMEM;
    return 1;
}

void *malloc(size_t size) {
    return is_refused() ? NULL : __libc_malloc(size);
}

void *calloc(size_t count, size_t size) {
    return is_refused() ? NULL : __libc_calloc(count, size);
}

void *realloc(void *old, size_t size) {
    return is_refused() ? NULL : __libc_realloc(old, size);
}

void *aligned_alloc(size_t align, size_t size) {
    return is_refused() ? NULL : __libc_memalign(align, size);
}

int posix_memalign(void **place, size_t align, size_t size) {
    if (is_refused())
        return ENOMEM;
    *place = __libc_memalign(align, size);
    return *place ? 0 : ENOMEM;
}
