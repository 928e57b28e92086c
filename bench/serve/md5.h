/* MD5 (RFC 1321) in plain C. */
#ifndef MD5_H
#define MD5_H
#include <stddef.h>
#include <stdint.h>

/* The words after some whole blocks of 64 bytes, and the number of these bytes. */
struct md5 {
    uint32_t words[4];
    uint64_t length;
};

void md5_start(struct md5 *sum);

void md5_blocks(struct md5 *sum, const char *bytes, size_t blocks);

/* Writes the sum of all blocks and of the remaining bytes, of any number. */
void md5_end(struct md5 *sum, const char *left, size_t length, uint8_t digest[16]);

void md5_of(const char *bytes, size_t length, uint8_t digest[16]);

/* Writes the 24 characters of base64 (RFC 4648, section 4) of a Content-MD5 field. */
void md5_text(const uint8_t digest[16], char *text);

#endif
