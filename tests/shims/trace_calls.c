/* Preloaded into the program: writes one line for each of its calls that write or sync, before the
   call is made, to the descriptor TRACE: the call's name and its descriptor. A socket that is set
   to send at once what is written has such a line, too, with the word `nodelay`. */
#define _GNU_SOURCE
#include <dlfcn.h>
#include <netinet/in.h>
#include <netinet/tcp.h>
#include <stdio.h>
#include <stdlib.h>
#include <string.h>
#include <sys/socket.h>
#include <sys/uio.h>
#include <unistd.h>

static int trace = -1;
static ssize_t (*next_write)(int, const void *, size_t);

static void begin(void) {
    const char *text = getenv("TRACE");
    next_write = dlsym(RTLD_NEXT, "write");
    trace = text ? atoi(text) : 2;
}

static void tell(const char *name, int descriptor) {
    char line[64];
    if (!next_write) begin();
    int length = snprintf(line, sizeof line, "%s %d\n", name, descriptor);
    if (next_write(trace, line, length) != length) abort();
}

#define PASS(type, name, parameters, arguments)                                  \
    type name parameters {                                                       \
        static type(*next) parameters;                                           \
        if (!next) next = dlsym(RTLD_NEXT, #name);                               \
        tell(#name, descriptor);                                                 \
        return next arguments;                                                   \
    }

PASS(ssize_t, write, (int descriptor, const void *bytes, size_t count), (descriptor, bytes, count))
PASS(ssize_t, writev, (int descriptor, const struct iovec *parts, int count), (descriptor, parts, count))
PASS(ssize_t, pwrite, (int descriptor, const void *bytes, size_t count, off_t at), (descriptor, bytes, count, at))
PASS(ssize_t, send, (int descriptor, const void *bytes, size_t count, int flags), (descriptor, bytes, count, flags))
PASS(ssize_t, sendmsg, (int descriptor, const struct msghdr *message, int flags), (descriptor, message, flags))
PASS(int, fsync, (int descriptor), (descriptor))
PASS(int, fdatasync, (int descriptor), (descriptor))

int setsockopt(int descriptor, int level, int option, const void *value, socklen_t size) {
    static int (*next)(int, int, int, const void *, socklen_t);
    if (!next) next = dlsym(RTLD_NEXT, "setsockopt");
    int result = next(descriptor, level, option, value, size);
    int is_number = level == IPPROTO_TCP && option == TCP_NODELAY && size >= sizeof(int);
    if (!result && is_number && *(const int *)value) tell("nodelay", descriptor);
    return result;
}
