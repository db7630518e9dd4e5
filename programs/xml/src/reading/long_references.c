#include "long_references.h"

#include <ctype.h>
#include <stdio.h>
#include <stdlib.h>

static const char first[] = "&#x";

enum {
    LONG_DIGITS = 11,   /* of a reference that is long, at least */
    DECIMAL_DIGITS = 7, /* that are enough for each character, .. */
    NO_CODE = 9999999   /* .. and for this, which is none */
};

/* How many hexadecimal digits begin the text, of so many at most. */
static size_t digits_of(struct span text, size_t most) {
    size_t count = 0;
    while (count < text.length && count < most && isxdigit((unsigned char)text.data[count]) != 0) {
        count++;
    }
    return count;
}

static size_t zeros_of(struct span text) {
    size_t count = 0;
    while (count < text.length && text.data[count] == '0') {
        count++;
    }
    return count;
}

/* Whether a long reference begins the text. */
static bool is_long(struct span text) {
    return span_begins(text, first) && digits_of(span_from(text, strlen(first)), LONG_DIGITS) == LONG_DIGITS;
}

/* Whether a long reference begins in the first bytes of the text, which are so many. Texts have fewer `#` than `&`. */
static bool has_long(struct span text, size_t length) {
    size_t end = length < text.length ? length + 1 : text.length;
    size_t at = 1;
    bool is_found = false;
    while (at < end && !is_found) {
        const char *sign = memchr(text.data + at, '#', end - at);
        at = sign == NULL ? end : (size_t)(sign - text.data);
        is_found = at < end && is_long(span_from(text, at - 1));
        at++;
    }
    return is_found;
}

/* Writes the last digits, of which the first is a zero. */
static void write_code(char *digits) {
    char number[DECIMAL_DIGITS + 1];
    memcpy(number, digits, DECIMAL_DIGITS);
    number[DECIMAL_DIGITS] = '\0';
    unsigned long code = strtoul(number, NULL, 16);
    (void)snprintf(number, sizeof number, "%07lu", code < NO_CODE ? code : NO_CODE);
    memcpy(digits, number, DECIMAL_DIGITS);
}

/* Writes digits at the start of the text. A number that is too great becomes another such one. Returns how many were written. */
static size_t write_digits(struct reference_scan *scan, char *text, size_t length) {
    struct span span = {text, length};
    size_t zeros = zeros_of(span);
    size_t digits = digits_of(span, DECIMAL_DIGITS + 1);
    bool is_last = digits == DECIMAL_DIGITS && zeros > 0;
    scan->is_long = digits > 0 && !is_last;
    if (zeros > DECIMAL_DIGITS) {
        return zeros - DECIMAL_DIGITS;
    }
    if (is_last) {
        write_code(text);
    } else if (digits > 0 && zeros == 0) {
        *text = '9';
    }
    return digits > 0;
}

/* Looks at the byte at the start of the text. Returns how many bytes were looked at. */
static size_t look(struct reference_scan *scan, char *text, size_t length) {
    struct span span = {text, length};
    if (scan->is_long) {
        return write_digits(scan, text, length);
    }
    if (scan->markup.kind == '\0' && span_begins(span, "<!")) {
        scan->has_values = span_begins(span, "<!A") || span_begins(span, "<![");
    }
    bool may_be = markup_look(&scan->markup, scan->looked, span) && (scan->markup.is_content || scan->has_values);
    if (!may_be || !is_long(span)) {
        return 1;
    }
    scan->is_long = true;
    text[strlen(first) - 1] = '0';
    return strlen(first);
}

/* Where the bytes end that may be looked at, but for those that were. */
static size_t end_of(struct span text, bool is_end) {
    return is_end ? text.length : text.length > REFERENCE_AHEAD ? text.length - REFERENCE_AHEAD : 0;
}

/* The place, from this one on, of the next byte that may have to be looked at. Without references it is the one by which what is read may end. */
static size_t next(const struct reference_scan *scan, struct span text, size_t at) {
    char kind = scan->markup.kind;
    bool is_literal = kind == '"' || kind == '\'';
    if (kind != '\0' && !scan->is_long && !(is_literal && scan->has_values)) {
        const char *found = memchr(text.data + at, kind, text.length - at);
        return found == NULL ? text.length : (size_t)(found - text.data);
    }
    while (at < text.length && !scan->is_long && !is_seen(text.data[at])) {
        at++;
    }
    return at;
}

/* The place of the offset in the text; that of its first byte if it is before. */
static size_t place_in(uint64_t offset, uint64_t begin) {
    return offset > begin ? (size_t)(offset - begin) : 0;
}

bool finds_long_reference(struct reference_scan *scan, struct span text, uint64_t begin, bool is_end) {
    size_t at = place_in(scan->looked > scan->searched ? scan->looked : scan->searched, begin);
    size_t end = end_of(text, is_end);
    if (at < end) {
        scan->searched = begin + end;
    }
    return scan->is_long || (at < end && has_long(span_from(text, at), end - at));
}

void write_long_references(struct reference_scan *scan, char *text, size_t length, uint64_t begin, bool is_end) {
    bool is_content = scan->markup.is_content;
    size_t at = place_in(scan->looked, begin);
    size_t end = end_of((struct span){text, length}, is_end);
    while (at < end && scan->markup.is_content == is_content) {
        at = next(scan, (struct span){text, end}, at);
        scan->looked = begin + at;
        at += at < end ? look(scan, text + at, length - at) : 0;
    }
    scan->looked = begin + at;
}

void write_long_references_in(char *text, size_t length, bool is_content) {
    struct reference_scan scan = {.markup = {.is_content = is_content}, .has_values = true};
    if (has_long((struct span){text, length}, length)) {
        write_long_references(&scan, text, length, 0, true);
    }
}
