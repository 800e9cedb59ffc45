/* Refuses one request for memory: request number REFUSE of a program that preloads this, counted from 1. On the first
   refusal it makes the file that REFUSED names, so that a run that asks less often can be told from one that was refused. */
#include <errno.h>
#include <fcntl.h>
#include <stdlib.h>
#include <unistd.h>

extern void *__libc_malloc(size_t size);
extern void *__libc_calloc(size_t count, size_t size);
extern void *__libc_realloc(void *old, size_t size);
extern void *__libc_memalign(size_t align, size_t size);

static long requests;

static int is_refused(void) {
    const char *wanted = getenv("REFUSE"), *mark = getenv("REFUSED");
    if (!wanted || ++requests != atol(wanted)) return 0;
    if (mark) close(open(mark, O_CREAT | O_WRONLY, 0600));
    errno = ENOMEM;
    return 1;
}

void *malloc(size_t size) { return is_refused() ? 0 : __libc_malloc(size); }
void *calloc(size_t count, size_t size) { return is_refused() ? 0 : __libc_calloc(count, size); }
void *realloc(void *old, size_t size) { return is_refused() ? 0 : __libc_realloc(old, size); }
void *memalign(size_t align, size_t size) { return is_refused() ? 0 : __libc_memalign(align, size); }
void *aligned_alloc(size_t align, size_t size) { return is_refused() ? 0 : __libc_memalign(align, size); }

int posix_memalign(void **place, size_t align, size_t size) {
    void *taken = is_refused() ? 0 : __libc_memalign(align, size);
    if (!taken) return ENOMEM;
    *place = taken;
    return 0;
}
