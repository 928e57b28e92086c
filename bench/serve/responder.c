/* Reads requests over persistent connections and answers with fixed bytes, a thread for each
   connection: a GET with a body of SIZE bytes, anything else without one. Prints its address, and
   runs until it is stopped. Usage: responder PORT SIZE */
#define _POSIX_C_SOURCE 200809L
#include <pthread.h>
#include <stdint.h>
#include <stdio.h>
#include <stdlib.h>
#include <string.h>
#include <sys/socket.h>
#include <unistd.h>

#include "state.h"
#include "wire.h"

static const char empty[] = "HTTP/1.1 200 OK\r\nContent-Length: 0\r\n\r\n";
static char *reply;
static size_t reply_length;

static void make_reply(size_t size) {
    char *body = size < SMALLEST_STATE ? calloc(size + 1, 1) : state_text(size);
    reply = malloc(size + 200);
    if (!body || !reply) exit(1);
    int head = sprintf(reply, "HTTP/1.1 200 OK\r\nContent-Type: application/json\r\nContent-Length: %zu\r\n\r\n", size);
    memcpy(reply + head, body, size);
    reply_length = (size_t)head + size;
    free(body);
}

static void *answer(void *given) {
    struct input *in = input_of((int)(intptr_t)given);
    size_t head, body;
    for (const char *start; (start = next_head(in, &head, &body));) {
        int is_get = !strncmp(start, "GET ", 4);
        if (!drop(in, head + body)) break;
        if (!send_whole(in->socket, is_get ? reply : empty, is_get ? reply_length : sizeof empty - 1)) break;
    }
    close(in->socket);
    free(in);
    return NULL;
}

int main(int argc, char **argv) {
    if (argc != 3) return 2;
    make_reply(strtoul(argv[2], NULL, 10));
    int listener = listening(atoi(argv[1]));
    if (listener < 0) return 1;
    printf("listening 127.0.0.1:%s\n", argv[1]);
    fflush(stdout);
    for (int socket; (socket = accept(listener, NULL, NULL)) >= 0;) {
        pthread_t thread;
        if (pthread_create(&thread, NULL, answer, (void *)(intptr_t)socket)) return 1;
        pthread_detach(thread);
    }
    return 1;
}
