/* Preloaded into the program: kills it before one of its calls that change files or names, or sync
   them. TURN is the number of that call, from 1; with TURN=0 none is killed, and each is counted in
   the file COUNT, by a byte. */
#define _GNU_SOURCE
#include <dlfcn.h>
#include <fcntl.h>
#include <signal.h>
#include <stdarg.h>
#include <stdlib.h>
#include <sys/types.h>
#include <unistd.h>

static int count;

static void step(void) {
    const char *turn = getenv("TURN"), *file = getenv("COUNT");
    count += 1;
    if (turn && atoi(turn) == count) kill(getpid(), SIGKILL);
    if (!file) return;
    int (*opening)(const char *, int, ...) = dlsym(RTLD_NEXT, "open");
    ssize_t (*writing)(int, const void *, size_t) = dlsym(RTLD_NEXT, "write");
    int descriptor = opening(file, O_WRONLY | O_APPEND | O_CREAT, 0600);
    if (descriptor < 0 || writing(descriptor, ".", 1) != 1) abort();
    close(descriptor);
}

#define PASS(type, name, parameters, arguments)                  \
    type name parameters {                                       \
        type(*next) parameters = dlsym(RTLD_NEXT, #name);        \
        step();                                                  \
        return next arguments;                                   \
    }

PASS(ssize_t, write, (int descriptor, const void *bytes, size_t size), (descriptor, bytes, size))
PASS(int, rename, (const char *from, const char *to), (from, to))
PASS(int, unlink, (const char *path), (path))
PASS(int, mkdir, (const char *path, mode_t mode), (path, mode))
PASS(int, fsync, (int descriptor), (descriptor))
PASS(int, fdatasync, (int descriptor), (descriptor))
