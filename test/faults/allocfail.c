/* A library for LD_PRELOAD that refuses chosen allocations of a program.

   ALLOC_FAIL=N    refuses the N-th alone, counted from 1
   ALLOC_FROM=N    refuses each from the N-th on
   ALLOC_EVERY=N   refuses each N-th
   ALLOC_MIN=B     only those of at least B bytes count
   ALLOC_COUNT=F   the count at the end of the process goes to the file F

   The loader's own allocations come before the program's and are counted too. */
#define _GNU_SOURCE
#include <errno.h>
#include <fcntl.h>
#include <stdio.h>
#include <stdlib.h>
#include <sys/syscall.h>
#include <unistd.h>

extern void *__libc_malloc(size_t);
extern void *__libc_realloc(void *, size_t);
extern void *__libc_calloc(size_t, size_t);
extern void *__libc_memalign(size_t, size_t);

static long count, one = -1, from = -1, every = -1, least = 0;
static int is_ready;

static long number(const char *name) {
    const char *text = getenv(name);
    return text ? atol(text) : -1;
}

static int is_refused(size_t bytes) {
    if (!is_ready) {
        is_ready = 1;
        one = number("ALLOC_FAIL");
        from = number("ALLOC_FROM");
        every = number("ALLOC_EVERY");
        least = number("ALLOC_MIN");
    }
    if (least > 0 && bytes < (size_t)least) return 0;
    count++;
    int refused = count == one || (from > 0 && count >= from) || (every > 0 && count % every == 0);
    if (refused) errno = ENOMEM;
    return refused;
}

void *malloc(size_t bytes) { return is_refused(bytes) ? NULL : __libc_malloc(bytes); }
void *realloc(void *old, size_t bytes) { return is_refused(bytes) ? NULL : __libc_realloc(old, bytes); }
void *calloc(size_t items, size_t bytes) { return is_refused(items * bytes) ? NULL : __libc_calloc(items, bytes); }
void *memalign(size_t alignment, size_t bytes) { return is_refused(bytes) ? NULL : __libc_memalign(alignment, bytes); }
void *aligned_alloc(size_t alignment, size_t bytes) { return memalign(alignment, bytes); }
int posix_memalign(void **result, size_t alignment, size_t bytes) {
    void *made = memalign(alignment, bytes);
    if (!made) return ENOMEM;
    *result = made;
    return 0;
}

__attribute__((destructor)) static void tell(void) {
    const char *path = getenv("ALLOC_COUNT");
    if (!path) return;
    int descriptor = (int)syscall(SYS_openat, AT_FDCWD, path, O_WRONLY | O_CREAT | O_TRUNC | O_CLOEXEC, 0644);
    char text[32];
    int length = snprintf(text, sizeof text, "%ld\n", count);
    if (syscall(SYS_write, descriptor, text, length) != length) return;
    syscall(SYS_close, descriptor);
}
