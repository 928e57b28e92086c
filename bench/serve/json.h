/* A scan of JSON texts. */
#ifndef JSON_H
#define JSON_H
#include <stddef.h>

/* Returns true if bytes are a JSON text (RFC 8259), in UTF-8, of at most 127 levels. Keeps nothing
   of it. */
int is_json(const char *bytes, size_t length);

#endif
