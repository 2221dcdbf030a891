// Stands before malloc, calloc and realloc of the C library, counts their calls, and refuses one of them: the one whose
// number, from 1, REFUSED says. When the program ends, the count is written to the descriptor that COUNTED says. For
// bench/refused, which builds it.
#include <errno.h>
#include <stddef.h>
#include <stdio.h>
#include <stdlib.h>

extern void *__libc_malloc(size_t);
extern void *__libc_calloc(size_t, size_t);
extern void *__libc_realloc(void *, size_t);

static long count;
static long refused;

static long number_in(const char *name) {
    const char *text = getenv(name);
    return text ? atol(text) : 0;
}

static int is_refused(void) {
    if (count == 0)
        refused = number_in("REFUSED");
    count++;
    if (count == refused)
        errno = ENOMEM;
    return count == refused;
}

void *malloc(size_t size) {
    return is_refused() ? NULL : __libc_malloc(size);
}

void *calloc(size_t many, size_t size) {
    return is_refused() ? NULL : __libc_calloc(many, size);
}

void *realloc(void *old, size_t size) {
    return is_refused() ? NULL : __libc_realloc(old, size);
}

__attribute__((destructor)) static void tell(void) {
    long had = count;
    int to = (int)number_in("COUNTED");
    if (to > 0)
        dprintf(to, "%ld", had);
}
