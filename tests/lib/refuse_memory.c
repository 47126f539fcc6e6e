/* Refuses the request for memory whose number stands in REFUSED, the first being 1, and writes a letter to the
   descriptor whose number stands in REFUSED_TELLS when it comes: s where the block has that much room already, so
   that a program may go on without it, and else r. Put in front of libc by LD_PRELOAD. */
#define _GNU_SOURCE
#include <dlfcn.h>
#include <errno.h>
#include <malloc.h>
#include <stdlib.h>
#include <unistd.h>

static long requests;

/* Whether the request that has come is the one to be refused. */
static int is_refused(const char *letter) {
    const char *number = getenv("REFUSED"), *descriptor = getenv("REFUSED_TELLS");
    requests++;
    if (!number || !descriptor || atol(number) != requests)
        return 0;
    if (write(atoi(descriptor), letter, 1) != 1)
        abort();
    errno = ENOMEM;
    return 1;
}

void *malloc(size_t size) {
    static void *(*next)(size_t);
    if (!next)
        *(void **)&next = dlsym(RTLD_NEXT, "malloc");
    return is_refused("r") ? NULL : next(size);
}

void *realloc(void *block, size_t size) {
    static void *(*next)(void *, size_t);
    if (!next)
        *(void **)&next = dlsym(RTLD_NEXT, "realloc");
    return is_refused(size <= malloc_usable_size(block) ? "s" : "r") ? NULL : next(block, size);
}
