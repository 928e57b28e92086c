/* Texts of states. */
#ifndef STATE_H
#define STATE_H
#include <stddef.h>

/* Serials have seven digits, so all texts of a size have one length. */
#define FIRST_SERIAL 1000000

#define SMALLEST_STATE 700

/* Returns a state of exactly this many bytes, at least the smallest, laid out as Terraform writes
   it, except that the serial is last: the bytes before it stay the same from push to push, and so
   do the blocks of its MD5. */
char *state_text(size_t size);

/* Returns a state of this many instances, each depending on the previous one. */
char *chain_text(size_t instances, size_t *size);

/* Returns the number of bytes before the serial. */
size_t before_serial(size_t size);

void set_serial(char *text, size_t size, unsigned serial);

unsigned serial_of(const char *text, size_t size);

#endif
