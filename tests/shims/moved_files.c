/* Preloaded into the program: right before it opens the file AWAY, moves that file to the path TO,
   or removes it if there is no TO. */
#define _GNU_SOURCE
#include <dlfcn.h>
#include <fcntl.h>
#include <stdarg.h>
#include <stdio.h>
#include <stdlib.h>
#include <string.h>
#include <unistd.h>

static void move(const char *path) {
    const char *away = getenv("AWAY"), *to = getenv("TO");
    if (!away || strcmp(path, away)) return;
    if (to) rename(away, to);
    else unlink(away);
}

int open(const char *path, int flags, ...) {
    int (*next)(const char *, int, ...) = dlsym(RTLD_NEXT, "open");
    va_list rest;
    va_start(rest, flags);
    mode_t mode = flags & O_CREAT ? va_arg(rest, mode_t) : 0;
    va_end(rest);
    move(path);
    return next(path, flags, mode);
}
