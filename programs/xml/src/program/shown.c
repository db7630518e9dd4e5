#include "shown.h"

#include <stdbool.h>
#include <string.h>

/* The length in UTF-8 of the character that begins here; 1 if none does. */
static size_t character_length(const char *text, size_t left) {
    unsigned char byte = (unsigned char)text[0];
    size_t length = byte < 0xC2 ? 1 : byte < 0xE0 ? 2 : byte < 0xF0 ? 3 : byte < 0xF5 ? 4 : 1;
    for (size_t at = 1; at < length; at++) {
        if (at >= left || ((unsigned char)text[at] & 0xC0) != 0x80) {
            return 1;
        }
    }
    return length;
}

void add_shown(struct bytes *line, const char *text, size_t length, size_t limit) {
    size_t count = 0;
    for (size_t at = 0; at < length; count++) {
        size_t size = character_length(text + at, length - at);
        unsigned char byte = (unsigned char)text[at];
        if (count == limit) {
            bytes_add_text(line, "..");
            return;
        }
        bool is_separator = size == 3 && memcmp(text + at, "\xE2\x80", 2) == 0 && ((unsigned char)text[at + 2] & 0xFE) == 0xA8;
        if (is_separator) {
            bytes_add_text(line, (unsigned char)text[at + 2] == 0xA8 ? "\\u2028" : "\\u2029");
        } else if (byte == '\n' || byte == '\t' || byte == '\r') {
            bytes_add_text(line, byte == '\n' ? "\\n" : byte == '\t' ? "\\t" : "\\r");
        } else if (byte < ' ' || byte == 0x7F) {
            bytes_format(line, "\\x%02x", byte);
        } else if (size == 2 && byte == 0xC2 && (unsigned char)text[at + 1] < 0xA0) {
            bytes_format(line, "\\x%02x", (unsigned char)text[at + 1]);
        } else {
            bytes_add(line, text + at, size);
        }
        at += size;
    }
}
