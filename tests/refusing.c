// Loaded before the C library: counts the calls for memory and refuses the one whose number REFUSED_CALL names,
// and tells so by a byte on the file that REFUSED_TO names.
#include <errno.h>
#include <stdlib.h>
#include <unistd.h>

extern void *__libc_malloc(size_t size);
extern void *__libc_calloc(size_t count, size_t size);
extern void *__libc_realloc(void *old, size_t size);
extern void *__libc_memalign(size_t align, size_t size);

static long asked;

static int is_refused(void) {
    const char *call = getenv("REFUSED_CALL"), *to = getenv("REFUSED_TO");
    asked++;
    if (call == NULL || to == NULL || asked != atol(call)) return 0;
    if (write(atoi(to), "r", 1) != 1) abort();
    errno = ENOMEM;
    return 1;
}

void *malloc(size_t size) { return is_refused() ? NULL : __libc_malloc(size); }

void *calloc(size_t count, size_t size) { return is_refused() ? NULL : __libc_calloc(count, size); }

void *realloc(void *old, size_t size) { return is_refused() ? NULL : __libc_realloc(old, size); }

void *memalign(size_t align, size_t size) { return is_refused() ? NULL : __libc_memalign(align, size); }

void *aligned_alloc(size_t align, size_t size) { return is_refused() ? NULL : __libc_memalign(align, size); }

int posix_memalign(void **made, size_t align, size_t size) {
    if (is_refused()) return ENOMEM;
    *made = __libc_memalign(align, size);
    return *made == NULL ? ENOMEM : 0;
}
