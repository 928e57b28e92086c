/* Messages of HTTP/1.1 over the sockets of the loopback interface. */
#define _POSIX_C_SOURCE 200809L
#include "wire.h"

#include <arpa/inet.h>
#include <netinet/in.h>
#include <netinet/tcp.h>
#include <stdlib.h>
#include <string.h>
#include <sys/socket.h>
#include <unistd.h>

struct input *input_of(int socket) {
    int on = 1;
    struct input *in = malloc(sizeof *in);
    if (!in) exit(1);
    setsockopt(socket, IPPROTO_TCP, TCP_NODELAY, &on, sizeof on);
    in->socket = socket;
    in->from = in->to = 0;
    return in;
}

static struct sockaddr_in place_of(int port) {
    struct sockaddr_in place = {.sin_family = AF_INET, .sin_port = htons((uint16_t)port)};
    place.sin_addr.s_addr = htonl(INADDR_LOOPBACK);
    return place;
}

int connected(int port) {
    struct sockaddr_in place = place_of(port);
    int made = socket(AF_INET, SOCK_STREAM, 0);
    return made >= 0 && !connect(made, (struct sockaddr *)&place, sizeof place) ? made : -1;
}

int listening(int port) {
    struct sockaddr_in place = place_of(port);
    int made = socket(AF_INET, SOCK_STREAM, 0);
    return made >= 0 && !bind(made, (struct sockaddr *)&place, sizeof place) && !listen(made, 128) ? made : -1;
}

static int read_more(struct input *in) {
    if (in->from == in->to) in->from = in->to = 0;
    if (in->to == INPUT_ROOM) {
        memmove(in->bytes, in->bytes + in->from, in->to - in->from);
        in->to -= in->from;
        in->from = 0;
    }
    ssize_t count = in->to < INPUT_ROOM ? recv(in->socket, in->bytes + in->to, INPUT_ROOM - in->to, 0) : 0;
    if (count > 0) in->to += (size_t)count;
    in->bytes[in->to] = 0;
    return count > 0;
}

char *next_head(struct input *in, size_t *head, size_t *body) {
    char *end = NULL;
    while (in->from == in->to || !(end = strstr(in->bytes + in->from, "\r\n\r\n")))
        if (!read_more(in)) return NULL;
    char *start = in->bytes + in->from;
    *head = (size_t)(end - start) + 4;
    *end = 0;
    const char *length = strstr(start, "\r\nContent-Length:");
    *body = length ? strtoul(length + strlen("\r\nContent-Length:"), NULL, 10) : 0;
    *end = '\r';
    return start;
}

char *use(struct input *in, size_t count) {
    while (in->to - in->from < count)
        if (!read_more(in)) return NULL;
    in->from += count;
    return in->bytes + in->from - count;
}

int drop(struct input *in, size_t count) {
    for (;;) {
        size_t there = in->to - in->from, used = there < count ? there : count;
        in->from += used;
        count -= used;
        if (!count) return 1;
        if (!read_more(in)) return 0;
    }
}

int send_whole(int socket, const char *bytes, size_t length) {
    while (length) {
        ssize_t count = send(socket, bytes, length, MSG_NOSIGNAL);
        if (count <= 0) return 0;
        bytes += count;
        length -= (size_t)count;
    }
    return 1;
}
