// Refuses one growth of memory of a program, the one that the variable REFUSED numbers from 1 on, and
// says so on standard error. It is loaded before the C library; refusals.py does that.
#include <stdatomic.h>
#include <stdlib.h>
#include <unistd.h>

extern void *__libc_malloc(size_t size);
extern void *__libc_realloc(void *old, size_t size);

static atomic_long growths;

static int is_refused(void) {
    const char *refused = getenv("REFUSED");
    if (!refused || ++growths != atol(refused))
        return 0;
    return write(2, "refused\n", 8) == 8;
}

void *malloc(size_t size) { return is_refused() ? NULL : __libc_malloc(size); }

void *realloc(void *old, size_t size) { return is_refused() ? NULL : __libc_realloc(old, size); }
