#include "bytes.h"

#include <stdarg.h>
#include <stdint.h>
#include <stdio.h>
#include <stdlib.h>

static bool fails(struct bytes *bytes) {
    bytes->failed = true;
    bytes->capacity = bytes->length;
    return false;
}

bool bytes_grow(struct bytes *bytes, size_t more) {
    if (bytes->failed || more > SIZE_MAX / 4 - bytes->length) {
        return fails(bytes);
    }
    size_t wanted = bytes->length + more;
    size_t capacity = bytes->capacity < 64 ? 64 : bytes->capacity;
    while (capacity < wanted) {
        capacity += capacity / 2;
    }
    char *data = realloc(bytes->data, capacity);
    if (data == NULL) {
        return fails(bytes);
    }
    bytes->data = data;
    bytes->capacity = capacity;
    return true;
}

size_t utf_8_of(unsigned code, char *bytes) {
    static const unsigned char leads[] = {0, 0, 0xC0, 0xE0, 0xF0};
    size_t length = code < 0x80 ? 1 : code < 0x800 ? 2 : code < 0x10000 ? 3 : 4;
    for (size_t at = length; at-- > 1; code >>= 6) {
        bytes[at] = (char)(0x80 | (code & 0x3F));
    }
    bytes[0] = (char)(leads[length] | code);
    return length;
}

void bytes_add_character(struct bytes *bytes, unsigned code) {
    char character[4];
    bytes_add(bytes, character, utf_8_of(code, character));
}

void bytes_format(struct bytes *bytes, const char *format, ...) {
    va_list values;
    va_start(values, format);
    int length = vsnprintf(NULL, 0, format, values);
    va_end(values);
    if (length < 0 || !bytes_reserve(bytes, (size_t)length + 1)) {
        fails(bytes);
        return;
    }
    va_start(values, format);
    vsnprintf(bytes->data + bytes->length, (size_t)length + 1, format, values);
    va_end(values);
    bytes->length += (size_t)length;
}

void bytes_add_count(struct bytes *bytes, unsigned long long count) {
    if (count >= 1000) {
        bytes_add_count(bytes, count / 1000);
        bytes_format(bytes, ",%03llu", count % 1000);
    } else {
        bytes_format(bytes, "%llu", count);
    }
}

void bytes_cut_front(struct bytes *bytes, size_t length) {
    if (length > 0 && length <= bytes->length) {
        bytes->length -= length;
        memmove(bytes->data, bytes->data + length, bytes->length);
    }
}

void bytes_clear(struct bytes *bytes) {
    bytes->length = 0;
}

const char *bytes_text(struct bytes *bytes) {
    if (!bytes_reserve(bytes, 1)) {
        return "";
    }
    bytes->data[bytes->length] = '\0';
    return bytes->data;
}

void bytes_free(struct bytes *bytes) {
    free(bytes->data);
    *bytes = (struct bytes)NO_BYTES;
}
