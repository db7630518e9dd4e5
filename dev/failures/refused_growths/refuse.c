/* Makes one growth of a program's memory fail:   REFUSE=N LD_PRELOAD=./refuse.so PROGRAM     (N counts from 1; 0 refuses none)
 *
 * If REFUSE_TO names an open descriptor, the shim writes a letter to it when it refuses: `s` if the old block has room for the new size (a shrink),
 * else `g`. So the caller sees whether the program had a growth of that number at all. */
#include <errno.h>
#include <malloc.h>
#include <stdlib.h>
#include <sys/syscall.h>
#include <unistd.h>

extern void *__libc_malloc(size_t size);
extern void *__libc_calloc(size_t count, size_t size);
extern void *__libc_realloc(void *old, size_t size);
extern void *__libc_memalign(size_t alignment, size_t size);

static long wanted = -1;
static long counted = 0;

static void tell(char letter) {
    const char *told = getenv("REFUSE_TO");
    if (told != NULL) {
        syscall(SYS_write, atoi(told), &letter, (size_t)1);
    }
}

static int is_refused(const void *old, size_t size) {
    if (wanted < 0) {
        const char *text = getenv("REFUSE");
        wanted = text ? atol(text) : 0;
    }
    if (__atomic_add_fetch(&counted, 1, __ATOMIC_RELAXED) != wanted) { /* threads have no order */
        return 0;
    }
    tell(old != NULL && malloc_usable_size((void *)old) >= size ? 's' : 'g');
    errno = ENOMEM;
    return 1;
}

void *malloc(size_t size) { return is_refused(NULL, size) ? NULL : __libc_malloc(size); }
void *calloc(size_t count, size_t size) { return is_refused(NULL, size) ? NULL : __libc_calloc(count, size); }
void *realloc(void *old, size_t size) { return is_refused(old, size) ? NULL : __libc_realloc(old, size); }
void *aligned_alloc(size_t alignment, size_t size) { return is_refused(NULL, size) ? NULL : __libc_memalign(alignment, size); }
