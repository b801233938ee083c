/* Preloaded into a program, this makes one of its allocations fail, or one start of a thread, or all from that one on.
 *
 * FAIL_AT    the number of that allocation, counted from 1 once libraries are set up; 0 or unset: none fails
 * FAIL_WHAT  "thread": starts of threads are counted in place of allocations
 * FAIL_REST  1: all later ones fail too
 * FAIL_NOTE  a descriptor to which one byte is written when that allocation is refused
 */
#define _GNU_SOURCE
#include <dlfcn.h>
#include <errno.h>
#include <pthread.h>
#include <stdlib.h>
#include <string.h>
#include <unistd.h>

/* The C library's own, under the names by which glibc lets an interposed malloc reach them. */
extern void *__libc_malloc(size_t), *__libc_calloc(size_t, size_t);
extern void *__libc_realloc(void *, size_t), *__libc_memalign(size_t, size_t);

static long fail_at, fail_rest, fail_note, count;
static int threads;

static long number(const char *name) {
    const char *text = getenv(name);
    return text ? atol(text) : 0;
}

__attribute__((constructor)) static void read_environment(void) {
    const char *what = getenv("FAIL_WHAT");
    threads = what && !strcmp(what, "thread");
    fail_rest = number("FAIL_REST");
    fail_note = number("FAIL_NOTE");
    fail_at = number("FAIL_AT");
}

static int is_refused(int thread) {
    if (!fail_at || thread != threads) return 0;
    long this_one = __atomic_add_fetch(&count, 1, __ATOMIC_SEQ_CST);
    if (this_one != fail_at && !(fail_rest && this_one > fail_at)) return 0;
    if (this_one == fail_at && write(fail_note, "!", 1) != 1) _exit(99);
    errno = ENOMEM;
    return 1;
}

void *malloc(size_t size) { return is_refused(0) ? NULL : __libc_malloc(size); }
void *calloc(size_t items, size_t size) { return is_refused(0) ? NULL : __libc_calloc(items, size); }
void *realloc(void *old, size_t size) { return is_refused(0) ? NULL : __libc_realloc(old, size); }
void *memalign(size_t align, size_t size) { return is_refused(0) ? NULL : __libc_memalign(align, size); }
void *aligned_alloc(size_t align, size_t size) { return memalign(align, size); }
int posix_memalign(void **made, size_t align, size_t size) {
    void *block = memalign(align, size);
    if (block) *made = block;
    return block ? 0 : ENOMEM;
}

typedef int start_thread(pthread_t *, const pthread_attr_t *, void *(*)(void *), void *);
int pthread_create(pthread_t *thread, const pthread_attr_t *attributes, void *(*run)(void *), void *argument) {
    if (is_refused(1)) return EAGAIN;
    start_thread *start = (start_thread *)dlsym(RTLD_NEXT, "pthread_create");
    return start(thread, attributes, run, argument);
}
