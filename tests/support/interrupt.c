/* Preloaded into a program, this interrupts one of its reads of standard input or of its writes to standard output
 * before a byte is moved, and no other. Such a call is to be made again.
 *
 * INTERRUPT     which calls are counted: read or write
 * INTERRUPT_AT  the number of that call, counted from 1; 0 or unset: none is interrupted
 * NOTE          a descriptor to which a byte is written when the call was interrupted
 */
#define _GNU_SOURCE
#include <errno.h>
#include <stdlib.h>
#include <string.h>
#include <sys/syscall.h>
#include <unistd.h>

static long calls;

/* Whether this call, of this kind, is the one to be interrupted. */
static int is_interrupted(const char *kind) {
    const char *what = getenv("INTERRUPT"), *at = getenv("INTERRUPT_AT"), *note = getenv("NOTE");
    if (!what || strcmp(what, kind) || ++calls != (at ? atol(at) : 0))
        return 0;
    if (note)
        syscall(SYS_write, atoi(note), "!", 1);
    return 1;
}

ssize_t read(int descriptor, void *bytes, size_t count) {
    if (descriptor == STDIN_FILENO && is_interrupted("read")) {
        errno = EINTR;
        return -1;
    }
    return syscall(SYS_read, descriptor, bytes, count);
}

ssize_t write(int descriptor, const void *bytes, size_t count) {
    if (descriptor == STDOUT_FILENO && is_interrupted("write")) {
        errno = EINTR;
        return -1;
    }
    return syscall(SYS_write, descriptor, bytes, count);
}

/* The same calls under the other names that glibc gives them. */
ssize_t __read(int descriptor, void *bytes, size_t count) { return read(descriptor, bytes, count); }

ssize_t __write(int descriptor, const void *bytes, size_t count) { return write(descriptor, bytes, count); }
