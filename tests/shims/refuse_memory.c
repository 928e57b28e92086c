/* Preloaded into the program: counts its requests for memory, and refuses those from REFUSE_FROM to
   REFUSE_TO, counted from 1. A request counts if its caller's code is the program's own; requests
   of the loader and the C library are counted separately and never refused. At the end both counts
   are written to the descriptor COUNTS, even if the program ends by _exit, as one with threads
   does. After them come the bytes of the program's longest request, and the peak of the memory
   given out, in which a block that is moved counts once, and which is approximate for a program
   with threads. */
#define _GNU_SOURCE
#include <errno.h>
#include <link.h>
#include <malloc.h>
#include <stdint.h>
#include <stdio.h>
#include <stdlib.h>
#include <sys/syscall.h>
#include <unistd.h>

void *__libc_malloc(size_t);
void *__libc_calloc(size_t, size_t);
void *__libc_realloc(void *, size_t);
void *__libc_memalign(size_t, size_t);
void __libc_free(void *);

static uintptr_t low, high;
static long from, to, own, others, live, most;
static size_t longest;
static int counts = -1;

static int find_program(struct dl_phdr_info *info, size_t size, void *unused) {
    (void)size, (void)unused;
    for (int i = 0; i < info->dlpi_phnum; i++) {
        const ElfW(Phdr) *part = &info->dlpi_phdr[i];
        if (part->p_type == PT_LOAD && part->p_flags & PF_X) {
            low = info->dlpi_addr + part->p_vaddr;
            high = low + part->p_memsz;
        }
    }
    return 1; /* The first is the program. */
}

static long number_in(const char *name) {
    const char *text = getenv(name);
    return text ? atol(text) : 0;
}

__attribute__((constructor)) static void begin(void) {
    from = number_in("REFUSE_FROM");
    to = number_in("REFUSE_TO");
    counts = (int)number_in("COUNTS");
    dl_iterate_phdr(find_program, NULL);
}

__attribute__((destructor)) static void end(void) {
    char text[96];
    int length = snprintf(text, sizeof text, "%ld %ld %zu %ld\n", own, others, longest, most);
    if (counts < 0) return;
    if (write(counts, text, length) != length) abort();
    counts = -1;
}

void _exit(int status) {
    end();
    syscall(SYS_exit_group, status);
    __builtin_unreachable();
}

/* Returns true if a request for this many bytes from this place in the code is refused. */
static int refuses(void *place, size_t size) {
    uintptr_t caller = (uintptr_t)place;
    if (caller < low || high <= caller) {
        others++;
        return 0;
    }
    own++;
    if (longest < size) longest = size;
    if (own < from || to < own) return 0;
    errno = ENOMEM;
    return 1;
}

#define REFUSED(size) refuses(__builtin_return_address(0), size)

static void *given(void *block) {
    live += malloc_usable_size(block);
    if (most < live) most = live;
    return block;
}

static void *moved(void *block, size_t size) {
    long before = malloc_usable_size(block);
    void *found = __libc_realloc(block, size);
    if (!found) return NULL;
    live -= before;
    return given(found);
}

void *malloc(size_t size) { return REFUSED(size) ? NULL : given(__libc_malloc(size)); }
void *calloc(size_t count, size_t size) { return REFUSED(count * size) ? NULL : given(__libc_calloc(count, size)); }
void *realloc(void *block, size_t size) { return REFUSED(size) ? NULL : moved(block, size); }
void *aligned_alloc(size_t alignment, size_t size) { return REFUSED(size) ? NULL : given(__libc_memalign(alignment, size)); }
void *memalign(size_t alignment, size_t size) { return REFUSED(size) ? NULL : given(__libc_memalign(alignment, size)); }

int posix_memalign(void **block, size_t alignment, size_t size) {
    void *found = REFUSED(size) ? NULL : given(__libc_memalign(alignment, size));
    if (!found) return ENOMEM;
    *block = found;
    return 0;
}

void free(void *block) {
    live -= malloc_usable_size(block);
    __libc_free(block);
}
