/* Preloaded into a program, this makes one of its writes to standard output fail, and no other.
 *
 * FAIL_AT    the number of that write, counted from 1; 0 or unset: none fails
 */
#define _GNU_SOURCE
#include <errno.h>
#include <stdlib.h>
#include <sys/syscall.h>
#include <unistd.h>

static long writes;

ssize_t write(int descriptor, const void *bytes, size_t count) {
    const char *fail_at = getenv("FAIL_AT");
    if (descriptor == STDOUT_FILENO && ++writes == (fail_at ? atol(fail_at) : 0)) {
        errno = EIO;
        return -1;
    }
    return syscall(SYS_write, descriptor, bytes, count);
}

/* The same call under the other name that glibc gives it. */
ssize_t __write(int descriptor, const void *bytes, size_t count) { return write(descriptor, bytes, count); }
