/* An array of bytes that grows. If a growth fails, `failed` is set, and what is added later is lost. So one check at the end is enough. */
#ifndef BYTES_H
#define BYTES_H

#include <stdbool.h>
#include <stddef.h>
#include <string.h>

struct bytes {
    char *data;
    size_t length;
    size_t capacity;
    bool failed;
};

/* A part of a text. The text has another owner. */
struct span {
    const char *data;
    size_t length;
};

#define NO_BYTES {NULL, 0, 0, false}

/* Whether the text begins with this one. */
static inline bool span_begins(struct span text, const char *with) {
    size_t length = strlen(with);
    return text.length >= length && memcmp(text.data, with, length) == 0;
}

/* The text from this byte on; an empty one if it ends before. */
static inline struct span span_from(struct span text, size_t at) {
    return at < text.length ? (struct span){text.data + at, text.length - at} : (struct span){text.data, 0};
}

/* Begins a function that stays out of those that call it, since they seldom do. So they save no registers for it. */
#define OUT_OF_LINE __attribute__((noinline))

/* Makes the room larger. After a failure there is no more room: the capacity is the length. */
bool bytes_grow(struct bytes *bytes, size_t more);

/* Makes room for `more` bytes after those that are there. */
static inline bool bytes_reserve(struct bytes *bytes, size_t more) {
    return more <= bytes->capacity - bytes->length || bytes_grow(bytes, more);
}

static inline void bytes_add(struct bytes *bytes, const void *data, size_t length) {
    if (length > 0 && bytes_reserve(bytes, length)) {
        memcpy(bytes->data + bytes->length, data, length);
        bytes->length += length;
    }
}

static inline void bytes_add_text(struct bytes *bytes, const char *text) {
    bytes_add(bytes, text, strlen(text));
}

static inline void bytes_add_byte(struct bytes *bytes, char byte) {
    if (bytes_reserve(bytes, 1)) {
        bytes->data[bytes->length++] = byte;
    }
}

/* Writes a character in UTF-8, of at most four bytes. Returns how many it has. */
size_t utf_8_of(unsigned code, char *bytes);
void bytes_add_character(struct bytes *bytes, unsigned code);
void bytes_format(struct bytes *bytes, const char *format, ...) __attribute__((format(printf, 2, 3)));
/* Adds a number with commas between its thousands. */
void bytes_add_count(struct bytes *bytes, unsigned long long count);
/* Removes the first `length` bytes. */
void bytes_cut_front(struct bytes *bytes, size_t length);
void bytes_clear(struct bytes *bytes);
/* Returns the bytes with a zero after them, or an empty text if memory ran out. */
const char *bytes_text(struct bytes *bytes);
void bytes_free(struct bytes *bytes);

#endif
