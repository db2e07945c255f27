/* Refuses one request for memory of the program into which it is loaded, the one whose number, from
   1, REFUSED is, and tells of it by a byte on descriptor 9. */
#include <errno.h>
#include <stdatomic.h>
#include <stddef.h>
#include <stdlib.h>
#include <unistd.h>

extern void *__libc_malloc(size_t), *__libc_calloc(size_t, size_t);
extern void *__libc_realloc(void *, size_t), *__libc_memalign(size_t, size_t);
static atomic_long asked;
static long refused;

__attribute__((constructor)) static void begin(void) {
    const char *number = getenv("REFUSED");
    asked = 0, refused = number ? atol(number) : 0;
}
static int refuses(void) {
    if (atomic_fetch_add(&asked, 1) + 1 != refused) return 0;
    return write(9, "x", 1), errno = ENOMEM, 1;
}
void *malloc(size_t size) { return refuses() ? NULL : __libc_malloc(size); }
void *calloc(size_t count, size_t size) { return refuses() ? NULL : __libc_calloc(count, size); }
void *realloc(void *old, size_t size) { return refuses() ? NULL : __libc_realloc(old, size); }
void *aligned_alloc(size_t align, size_t size) {
    return refuses() ? NULL : __libc_memalign(align, size);
}
int posix_memalign(void **made, size_t align, size_t size) {
    return refuses() || !(*made = __libc_memalign(align, size)) ? ENOMEM : 0;
}
