/* Preloaded into the program: a signal interrupts its calls that write a file, and its calls that
   sync one, first once and then twice in a row before each call that is made. A body that makes a
   call twice after one interruption, or after two, does so here. */
#define _GNU_SOURCE
#include <dlfcn.h>
#include <errno.h>
#include <stdatomic.h>
#include <unistd.h>

static atomic_uint writes, syncs;

static int interrupts(atomic_uint *calls) {
    unsigned turn = atomic_fetch_add(calls, 1) % 5;
    errno = EINTR;
    return turn != 1 && turn != 4;
}

ssize_t write(int descriptor, const void *bytes, size_t count) {
    ssize_t (*next)(int, const void *, size_t) = dlsym(RTLD_NEXT, "write");
    return interrupts(&writes) ? -1 : next(descriptor, bytes, count);
}

int fdatasync(int descriptor) {
    int (*next)(int) = dlsym(RTLD_NEXT, "fdatasync");
    return interrupts(&syncs) ? -1 : next(descriptor);
}
