/* Texts of states. */
#include "state.h"

#include <stdarg.h>
#include <stdio.h>
#include <stdlib.h>
#include <string.h>

#define DIGITS 7
#define END "\n}\n"
#define MAX_RESOURCES 4000

struct text {
    char *bytes;
    size_t length, room;
};

static struct text with_room(size_t room) {
    struct text text = {malloc(room), 0, room};
    if (!text.bytes) exit(1);
    return text;
}

static void add(struct text *text, const char *format, ...) {
    va_list values;
    va_start(values, format);
    text->length += (size_t)vsnprintf(text->bytes + text->length, text->room - text->length, format, values);
    va_end(values);
}

static void begin(struct text *text) {
    add(text, "{\n  \"version\": 4,\n  \"terraform_version\": \"1.9.0\",\n");
    add(text, "  \"lineage\": \"3f2a9c0e-8d1b-4a57-9a35-2f6e1d7b5c11\",\n  \"outputs\": {},\n  \"resources\": [");
}

/* Ends the text with padding up to a size, if it has less, and the serial. */
static char *end(struct text *text, size_t size) {
    size_t last = strlen("\",\n  \"serial\": ") + DIGITS + strlen(END);
    add(text, "\n  ],\n  \"padding\": \"");
    while (text->length + last < size) text->bytes[text->length++] = '.';
    add(text, "\",\n  \"serial\": %d%s", FIRST_SERIAL, END);
    return text->bytes;
}

static const char *const values[] = {"\"a value of forty bytes or thereabouts\"", "\"10.0.0.1\"", "10240", "true"};

/* Adds a resource of this many bytes, or a few more, most of them its instance's attributes. */
static void add_resource(struct text *text, size_t number, size_t size) {
    size_t from = text->length;
    add(text, "%s\n    {\n      \"mode\": \"managed\",\n      \"type\": \"acme_server\",\n", number ? "," : "");
    add(text, "      \"name\": \"server_%zu\",\n      \"provider\": \"provider[\\\"example.org/acme/acme\\\"]\",\n", number);
    add(text, "      \"instances\": [\n        {\n          \"schema_version\": 1,\n          \"attributes\": {\n");
    for (int k = 0; text->length - from + 130 < size; k++)
        add(text, "            \"attribute_%d\": %s,\n", k, values[k % 4]);
    add(text, "            \"id\": \"i-%08zx\"\n          },\n          \"sensitive_attributes\": []", number);
    if (number) add(text, ",\n          \"dependencies\": [\n            \"acme_server.server_%zu\"\n          ]", number / 2);
    add(text, "\n        }\n      ]\n    }");
}

char *state_text(size_t size) {
    size_t resources = size / 600 < 1 ? 1 : size / 600 > MAX_RESOURCES ? MAX_RESOURCES : size / 600;
    size_t each = (size - 250) / resources;
    struct text text = with_room(size + 4096);
    begin(&text);
    for (size_t k = 0; k < resources && text.length + each + 80 < size; k++) add_resource(&text, k, each);
    return end(&text, size);
}

char *chain_text(size_t instances, size_t *size) {
    struct text text = with_room(instances * 160 + 1024);
    begin(&text);
    for (size_t k = 0; k < instances; k++) {
        add(&text, "%s{\"mode\":\"managed\",\"type\":\"t\",\"name\":\"r%zu\",\"instances\":[{", k ? "," : "", k);
        if (k) add(&text, "\"dependencies\":[\"t.r%zu\"]", k - 1);
        add(&text, "}]}");
    }
    end(&text, 0);
    *size = text.length;
    return text.bytes;
}

size_t before_serial(size_t size) { return size - strlen(END) - DIGITS; }

void set_serial(char *text, size_t size, unsigned serial) {
    for (int k = DIGITS; k-- > 0; serial /= 10) text[before_serial(size) + (size_t)k] = (char)('0' + serial % 10);
}

unsigned serial_of(const char *text, size_t size) {
    unsigned serial = 0;
    for (int k = 0; k < DIGITS; k++) serial = serial * 10 + (unsigned)(text[before_serial(size) + (size_t)k] - '0');
    return serial;
}
