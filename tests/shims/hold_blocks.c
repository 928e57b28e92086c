/* Preloaded into the program: a thread that requests a block of LONG bytes or more, or frees one,
   reports it by a byte to the descriptor TOLD, and continues once it has read a byte from the
   descriptor GOES_ON. Meanwhile no other thread is held. */
#define _GNU_SOURCE
#include <errno.h>
#include <malloc.h>
#include <stdlib.h>
#include <unistd.h>

void *__libc_malloc(size_t);
void *__libc_realloc(void *, size_t);
void __libc_free(void *);

static size_t least = -1;
static int told, goes_on, holds;

__attribute__((constructor)) static void begin(void) {
    least = atol(getenv("LONG"));
    told = atoi(getenv("TOLD"));
    goes_on = atoi(getenv("GOES_ON"));
}

static void hold(size_t size) {
    char byte = 0;
    int error = errno;
    if (size < least || __atomic_exchange_n(&holds, 1, __ATOMIC_ACQUIRE)) return;
    if (write(told, &byte, 1) != 1 || read(goes_on, &byte, 1) != 1) _exit(99);
    __atomic_store_n(&holds, 0, __ATOMIC_RELEASE);
    errno = error;
}

void *malloc(size_t size) {
    hold(size);
    return __libc_malloc(size);
}

void *realloc(void *block, size_t size) {
    hold(size);
    return __libc_realloc(block, size);
}

void free(void *block) {
    if (block) hold(malloc_usable_size(block));
    __libc_free(block);
}
