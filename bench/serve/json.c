/* A scan of JSON texts in one pass, over the grammar of RFC 8259. */
#include "json.h"

#include <string.h>

#define MAX_LEVELS 127

struct scan {
    const unsigned char *at, *end;
};

static int next_is(struct scan *scan, unsigned char byte) {
    if (scan->at == scan->end || *scan->at != byte) return 0;
    scan->at++;
    return 1;
}

static void skip_space(struct scan *scan) {
    while (scan->at < scan->end && (*scan->at == ' ' || *scan->at == '\n' || *scan->at == '\r' || *scan->at == '\t')) scan->at++;
}

static int digits(struct scan *scan) {
    const unsigned char *from = scan->at;
    while (scan->at < scan->end && *scan->at >= '0' && *scan->at <= '9') scan->at++;
    return scan->at > from;
}

static int number(struct scan *scan) {
    next_is(scan, '-');
    if (!next_is(scan, '0') && !digits(scan)) return 0;
    if (next_is(scan, '.') && !digits(scan)) return 0;
    if (next_is(scan, 'e') || next_is(scan, 'E')) {
        if (!next_is(scan, '+')) next_is(scan, '-');
        return digits(scan);
    }
    return 1;
}

static int hex_digits(struct scan *scan) {
    for (int k = 0; k < 4; k++, scan->at++)
        if (scan->at == scan->end || !strchr("0123456789abcdefABCDEF", *scan->at) || !*scan->at) return 0;
    return 1;
}

/* Skips a character of two to four bytes (RFC 3629, section 4). */
static int wide(struct scan *scan) {
    unsigned first = *scan->at++, more = first >= 0xf0 ? 3 : first >= 0xe0 ? 2 : 1, code = first & (0x3fu >> more);
    if (first < 0xc2 || first > 0xf4) return 0;
    for (unsigned k = 0; k < more; k++, scan->at++) {
        if (scan->at == scan->end || *scan->at >> 6 != 2) return 0;
        code = code << 6 | (*scan->at & 0x3fu);
    }
    return code >= (more == 3 ? 0x10000u : more == 2 ? 0x800u : 0x80u) && code <= 0x10ffff && (code < 0xd800 || code > 0xdfff);
}

/* Skips the rest of a text after the opening quote, including the closing one. Doesn't check for
   half a pair of `\u`. */
static int text(struct scan *scan) {
    while (scan->at < scan->end) {
        unsigned char byte = *scan->at;
        if (byte >= 0x80) {
            if (!wide(scan)) return 0;
        } else if (scan->at++, byte == '"') {
            return 1;
        } else if (byte < ' ') {
            return 0;
        } else if (byte == '\\') {
            if (scan->at == scan->end || !*scan->at || !strchr("\"\\/bfnrtu", *scan->at)) return 0;
            if (*scan->at++ == 'u' && !hex_digits(scan)) return 0;
        }
    }
    return 0;
}

static int word(struct scan *scan, const char *word) {
    size_t length = strlen(word);
    if ((size_t)(scan->end - scan->at) < length || memcmp(scan->at, word, length)) return 0;
    scan->at += length;
    return 1;
}

static int value(struct scan *scan, int levels);

/* Skips the members of an object, or the elements of an array, after the opening bracket. */
static int members(struct scan *scan, int levels, unsigned char close) {
    if (levels == MAX_LEVELS) return 0;
    skip_space(scan);
    if (next_is(scan, close)) return 1;
    do {
        skip_space(scan);
        if (close == '}') {
            if (!next_is(scan, '"') || !text(scan)) return 0;
            skip_space(scan);
            if (!next_is(scan, ':')) return 0;
        }
        if (!value(scan, levels + 1)) return 0;
        skip_space(scan);
    } while (next_is(scan, ','));
    return next_is(scan, close);
}

static int value(struct scan *scan, int levels) {
    skip_space(scan);
    if (scan->at == scan->end) return 0;
    switch (*scan->at) {
    case '"': scan->at++; return text(scan);
    case '{': scan->at++; return members(scan, levels, '}');
    case '[': scan->at++; return members(scan, levels, ']');
    case 't': return word(scan, "true");
    case 'f': return word(scan, "false");
    case 'n': return word(scan, "null");
    default: return number(scan);
    }
}

int is_json(const char *bytes, size_t length) {
    struct scan scan = {(const unsigned char *)bytes, (const unsigned char *)bytes + length};
    if (!value(&scan, 0)) return 0;
    skip_space(&scan);
    return scan.at == scan.end;
}
