/* Messages of HTTP/1.1 over the sockets of the loopback interface. */
#ifndef WIRE_H
#define WIRE_H
#include <stddef.h>

#define INPUT_ROOM 262144

/* The read and unused bytes of a connection: the bytes of one reading buffer between two places. */
struct input {
    int socket;
    size_t from, to;
    char bytes[INPUT_ROOM + 1];
};

/* Returns an input without bytes, over a socket that sends at once. */
struct input *input_of(int socket);

/* Returns a socket that is connected to a port of the loopback interface, or one that listens
   there. */
int connected(int port);
int listening(int port);

/* Reads until a head is complete. Returns its start, with the lengths of the head and its body;
   NULL if the connection ends. */
char *next_head(struct input *in, size_t *head, size_t *body);

/* Uses this many bytes. Returns their start; NULL if the connection ends, or if they are too many
   to be kept. */
char *use(struct input *in, size_t count);

/* Uses this many bytes, of any number, and keeps none. Returns true if they came. */
int drop(struct input *in, size_t count);

int send_whole(int socket, const char *bytes, size_t length);

#endif
