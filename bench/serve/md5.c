/* MD5 (RFC 1321) in plain C, with its 64 steps written out. */
#include "md5.h"

#include <string.h>

#define F(x, y, z) ((z) ^ ((x) & ((y) ^ (z))))
#define G(x, y, z) ((y) ^ ((z) & ((x) ^ (y))))
#define H(x, y, z) ((x) ^ (y) ^ (z))
#define I(x, y, z) ((y) ^ ((x) | ~(z)))
#define STEP(f, a, b, c, d, k, s, t) a += f(b, c, d) + x[k] + t; a = (a << (s) | a >> (32 - (s))) + b;

/* Section 3.4: one block. */
static void take_block(uint32_t words[4], const uint32_t x[16]) {
    uint32_t a = words[0], b = words[1], c = words[2], d = words[3];
    STEP(F, a, b, c, d, 0, 7, 0xd76aa478) STEP(F, d, a, b, c, 1, 12, 0xe8c7b756)
    STEP(F, c, d, a, b, 2, 17, 0x242070db) STEP(F, b, c, d, a, 3, 22, 0xc1bdceee)
    STEP(F, a, b, c, d, 4, 7, 0xf57c0faf) STEP(F, d, a, b, c, 5, 12, 0x4787c62a)
    STEP(F, c, d, a, b, 6, 17, 0xa8304613) STEP(F, b, c, d, a, 7, 22, 0xfd469501)
    STEP(F, a, b, c, d, 8, 7, 0x698098d8) STEP(F, d, a, b, c, 9, 12, 0x8b44f7af)
    STEP(F, c, d, a, b, 10, 17, 0xffff5bb1) STEP(F, b, c, d, a, 11, 22, 0x895cd7be)
    STEP(F, a, b, c, d, 12, 7, 0x6b901122) STEP(F, d, a, b, c, 13, 12, 0xfd987193)
    STEP(F, c, d, a, b, 14, 17, 0xa679438e) STEP(F, b, c, d, a, 15, 22, 0x49b40821)
    STEP(G, a, b, c, d, 1, 5, 0xf61e2562) STEP(G, d, a, b, c, 6, 9, 0xc040b340)
    STEP(G, c, d, a, b, 11, 14, 0x265e5a51) STEP(G, b, c, d, a, 0, 20, 0xe9b6c7aa)
    STEP(G, a, b, c, d, 5, 5, 0xd62f105d) STEP(G, d, a, b, c, 10, 9, 0x02441453)
    STEP(G, c, d, a, b, 15, 14, 0xd8a1e681) STEP(G, b, c, d, a, 4, 20, 0xe7d3fbc8)
    STEP(G, a, b, c, d, 9, 5, 0x21e1cde6) STEP(G, d, a, b, c, 14, 9, 0xc33707d6)
    STEP(G, c, d, a, b, 3, 14, 0xf4d50d87) STEP(G, b, c, d, a, 8, 20, 0x455a14ed)
    STEP(G, a, b, c, d, 13, 5, 0xa9e3e905) STEP(G, d, a, b, c, 2, 9, 0xfcefa3f8)
    STEP(G, c, d, a, b, 7, 14, 0x676f02d9) STEP(G, b, c, d, a, 12, 20, 0x8d2a4c8a)
    STEP(H, a, b, c, d, 5, 4, 0xfffa3942) STEP(H, d, a, b, c, 8, 11, 0x8771f681)
    STEP(H, c, d, a, b, 11, 16, 0x6d9d6122) STEP(H, b, c, d, a, 14, 23, 0xfde5380c)
    STEP(H, a, b, c, d, 1, 4, 0xa4beea44) STEP(H, d, a, b, c, 4, 11, 0x4bdecfa9)
    STEP(H, c, d, a, b, 7, 16, 0xf6bb4b60) STEP(H, b, c, d, a, 10, 23, 0xbebfbc70)
    STEP(H, a, b, c, d, 13, 4, 0x289b7ec6) STEP(H, d, a, b, c, 0, 11, 0xeaa127fa)
    STEP(H, c, d, a, b, 3, 16, 0xd4ef3085) STEP(H, b, c, d, a, 6, 23, 0x04881d05)
    STEP(H, a, b, c, d, 9, 4, 0xd9d4d039) STEP(H, d, a, b, c, 12, 11, 0xe6db99e5)
    STEP(H, c, d, a, b, 15, 16, 0x1fa27cf8) STEP(H, b, c, d, a, 2, 23, 0xc4ac5665)
    STEP(I, a, b, c, d, 0, 6, 0xf4292244) STEP(I, d, a, b, c, 7, 10, 0x432aff97)
    STEP(I, c, d, a, b, 14, 15, 0xab9423a7) STEP(I, b, c, d, a, 5, 21, 0xfc93a039)
    STEP(I, a, b, c, d, 12, 6, 0x655b59c3) STEP(I, d, a, b, c, 3, 10, 0x8f0ccc92)
    STEP(I, c, d, a, b, 10, 15, 0xffeff47d) STEP(I, b, c, d, a, 1, 21, 0x85845dd1)
    STEP(I, a, b, c, d, 8, 6, 0x6fa87e4f) STEP(I, d, a, b, c, 15, 10, 0xfe2ce6e0)
    STEP(I, c, d, a, b, 6, 15, 0xa3014314) STEP(I, b, c, d, a, 13, 21, 0x4e0811a1)
    STEP(I, a, b, c, d, 4, 6, 0xf7537e82) STEP(I, d, a, b, c, 11, 10, 0xbd3af235)
    STEP(I, c, d, a, b, 2, 15, 0x2ad7d2bb) STEP(I, b, c, d, a, 9, 21, 0xeb86d391)
    words[0] += a;
    words[1] += b;
    words[2] += c;
    words[3] += d;
}

void md5_start(struct md5 *sum) {
    *sum = (struct md5){{0x67452301, 0xefcdab89, 0x98badcfe, 0x10325476}, 0};
}

/* The words of a block have their lowest byte first. */
void md5_blocks(struct md5 *sum, const char *bytes, size_t blocks) {
    const uint8_t *at = (const uint8_t *)bytes;
    for (size_t block = 0; block < blocks; block++, at += 64) {
        uint32_t x[16];
        for (int k = 0; k < 16; k++)
            x[k] = at[4 * k] | (uint32_t)at[4 * k + 1] << 8 | (uint32_t)at[4 * k + 2] << 16 | (uint32_t)at[4 * k + 3] << 24;
        take_block(sum->words, x);
    }
    sum->length += 64 * (uint64_t)blocks;
}

/* Sections 3.1 and 3.2: a bit, zeros, and the length in bits. */
void md5_end(struct md5 *sum, const char *left, size_t length, uint8_t digest[16]) {
    char last[128] = {0};
    size_t whole = length / 64, rest = length % 64, blocks = rest < 56 ? 1 : 2;
    md5_blocks(sum, left, whole);
    uint64_t bits = 8 * (sum->length + rest);
    memcpy(last, left + 64 * whole, rest);
    last[rest] = (char)0x80;
    for (int k = 0; k < 8; k++) last[64 * blocks - 8 + k] = (char)(bits >> 8 * k);
    md5_blocks(sum, last, blocks);
    for (int k = 0; k < 16; k++) digest[k] = (uint8_t)(sum->words[k / 4] >> k % 4 * 8);
}

void md5_of(const char *bytes, size_t length, uint8_t digest[16]) {
    struct md5 sum;
    md5_start(&sum);
    md5_end(&sum, bytes, length, digest);
}

void md5_text(const uint8_t digest[16], char *text) {
    static const char digits[] = "ABCDEFGHIJKLMNOPQRSTUVWXYZabcdefghijklmnopqrstuvwxyz0123456789+/";
    for (int k = 0; k < 18; k += 3) {
        uint32_t three = (uint32_t)digest[k] << 16 | (k < 15 ? (uint32_t)digest[k + 1] << 8 | digest[k + 2] : 0);
        for (int place = 0; place < 4; place++) *text++ = digits[three >> (18 - 6 * place) & 63];
    }
    memcpy(text - 2, "==", 2);
}
