#include "left_out.h"

#include "secret.h"

#include <inttypes.h>
#include <stdio.h>
#include <stdlib.h>

static const char begin[] = "{left-out:";

enum { DIGITS = 8 /* of the number of a part, with the bit that says whether it lasts */ };

static void free_parts(struct left_parts *parts) {
    for (uint32_t at = 0; at < parts->count; at++) {
        bytes_free(&parts->parts[at]);
    }
    parts->count = 0;
}

void left_out_free(struct left_out *left) {
    free_parts(&left->passing);
    free_parts(&left->lasting);
    free(left->passing.parts);
    free(left->lasting.parts);
}

/* Makes room for one more part. False: out of memory. */
static bool has_room(struct left_parts *parts) {
    if (parts->count < parts->capacity) {
        return true;
    }
    uint32_t wanted = parts->capacity == 0 ? 4 : 2 * parts->capacity;
    struct bytes *longer = wanted < parts->capacity ? NULL : realloc(parts->parts, wanted * sizeof *longer);
    if (longer == NULL) {
        return false;
    }
    parts->parts = longer;
    parts->capacity = wanted;
    return true;
}

static void write_mark(const struct left_out *left, uint32_t number, char mark[LEFT_OUT_MARK + 1]) {
    snprintf(mark, LEFT_OUT_MARK + 1, "%s%016" PRIx64 "%08" PRIx32 "}", begin, left->secret[0], number);
}

bool left_out_put(struct left_out *left, bool is_lasting, struct bytes *part, char mark[LEFT_OUT_MARK + 1]) {
    struct left_parts *parts = is_lasting ? &left->lasting : &left->passing;
    if (part->failed || !has_room(parts)) {
        return false;
    }
    if (!left->has_secret) {
        choose_secret(left->secret);
        left->has_secret = true;
    }
    write_mark(left, 2 * parts->next++ + is_lasting, mark);
    left->held += part->capacity;
    parts->parts[parts->count++] = *part;
    *part = (struct bytes)NO_BYTES;
    return true;
}

/* The part whose mark is at the start of the text; NULL: there is none. */
static const struct bytes *part_at(const struct left_out *left, struct span text) {
    char number[DIGITS + 1] = "";
    char mark[LEFT_OUT_MARK + 1];
    if (text.length < LEFT_OUT_MARK || !span_begins(text, begin)) {
        return NULL;
    }
    memcpy(number, text.data + LEFT_OUT_MARK - 1 - DIGITS, DIGITS);
    uint32_t found = (uint32_t)strtoul(number, NULL, 16);
    const struct left_parts *parts = found % 2 == 1 ? &left->lasting : &left->passing;
    uint32_t index = found / 2 - (parts->next - parts->count);
    write_mark(left, found, mark);
    return index < parts->count && memcmp(text.data, mark, LEFT_OUT_MARK) == 0 ? &parts->parts[index] : NULL;
}

const struct bytes *left_out_part(const struct left_out *left, struct span text) {
    return text.length == LEFT_OUT_MARK ? part_at(left, text) : NULL;
}

/* The first mark in the text, and its part. Returns where it is; the length of the text if there is none. */
static size_t next_mark(const struct left_out *left, struct span text, const struct bytes **part) {
    size_t at = 0;
    *part = NULL;
    while (*part == NULL && at < text.length) {
        const char *found = memchr(text.data + at, begin[0], text.length - at);
        at = found == NULL ? text.length : (size_t)(found - text.data);
        *part = found == NULL ? NULL : part_at(left, span_from(text, at));
        at += *part == NULL && found != NULL;
    }
    return at;
}

bool left_out_is_in(const struct left_out *left, struct span text) {
    const struct bytes *part = NULL;
    next_mark(left, text, &part);
    return part != NULL;
}

size_t left_out_length(const struct left_out *left, struct span text) {
    const struct bytes *part = NULL;
    size_t length = text.length;
    for (size_t at = next_mark(left, text, &part); part != NULL; at = next_mark(left, text, &part)) {
        length += part->length - LEFT_OUT_MARK;
        text = span_from(text, at + LEFT_OUT_MARK);
    }
    return length;
}

void left_out_add(const struct left_out *left, struct span text, struct bytes *to) {
    const struct bytes *part = NULL;
    for (size_t at = next_mark(left, text, &part); part != NULL; at = next_mark(left, text, &part)) {
        bytes_add(to, text.data, at);
        bytes_add(to, part->data, part->length);
        text = span_from(text, at + LEFT_OUT_MARK);
    }
    bytes_add(to, text.data, text.length);
}

size_t leave_tokens(char *text, size_t length) {
    size_t to = 0;
    for (size_t at = 0; at < length; at++) {
        if (text[at] != ' ' || (to > 0 && text[to - 1] != ' ')) {
            text[to++] = text[at];
        }
    }
    return to > 0 && text[to - 1] == ' ' ? to - 1 : to;
}

void left_out_add_tokens(const struct left_out *left, struct span text, struct bytes *to) {
    size_t begin = to->length;
    left_out_add(left, text, to);
    to->length = begin + leave_tokens(to->data + begin, to->length - begin);
}

void left_out_forget(struct left_out *left) {
    for (uint32_t at = 0; at < left->passing.count; at++) {
        left->held -= left->passing.parts[at].capacity;
    }
    free_parts(&left->passing);
}
