/* Takes no more bytes of a write than the number that stands in SHORT_WRITES says, but for those to standard output
   and standard error. Put in front of libc by LD_PRELOAD. */
#define _GNU_SOURCE
#include <stdlib.h>
#include <sys/syscall.h>
#include <unistd.h>

ssize_t write(int descriptor, const void *bytes, size_t count) {
    const char *number = getenv("SHORT_WRITES");
    size_t most = number ? (size_t)atol(number) : count;
    return syscall(SYS_write, descriptor, bytes, 2 < descriptor && most < count ? most : count);
}

ssize_t __write(int descriptor, const void *bytes, size_t count) {
    return write(descriptor, bytes, count);
}
