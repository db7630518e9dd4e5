#include "source_line.h"

#include "paths.h"

#include <stdio.h>

enum {
    MOST_BYTES = 65536,   /* of a line */
    SHOWN_CHARACTERS = 96, /* of it .. */
    SHOWN_BEFORE = 64      /* .. and at most so many before the column */
};

/* The next byte of the file, and a line feed for each line end: LF, CR, or both. */
static int next_byte(FILE *file) {
    int byte = getc(file);
    int after = byte == '\r' ? getc(file) : '\n';
    if (after != '\n' && after != EOF) {
        ungetc(after, file);
    }
    return byte == '\r' ? '\n' : byte;
}

/* Reads over the lines before this one. */
static void skip_lines(FILE *file, uint64_t count) {
    int byte = '\0';
    while (count > 0 && byte != EOF) {
        byte = next_byte(file);
        count -= byte == '\n';
    }
}

/* Reads a line without its end. False: it is too long. */
static bool read_line(FILE *file, struct bytes *line) {
    for (int byte = next_byte(file); byte != '\n' && byte != EOF; byte = next_byte(file)) {
        if (line->length == MOST_BYTES) {
            return false;
        }
        bytes_add_byte(line, (char)byte);
    }
    return true;
}

/* The bytes of so many characters. */
static size_t bytes_of_characters(const struct bytes *line, size_t begin, uint64_t count) {
    size_t at = begin;
    for (; count > 0 && at < line->length; count--) {
        at++;
        while (at < line->length && ((unsigned char)line->data[at] & 0xC0) == 0x80) {
            at++;
        }
    }
    return at - begin;
}

/* Adds a part of the line. Each control character is shown as a blank or a mark, so that it moves nothing. */
static void add_part(struct bytes *to, const char *text, size_t length) {
    for (size_t at = 0; at < length; at++) {
        unsigned char byte = (unsigned char)text[at];
        bool is_control = byte == 0xC2 && at + 1 < length && (unsigned char)text[at + 1] < 0xA0;
        if (is_control || byte < ' ' || byte == 0x7F) {
            bytes_add_byte(to, byte == '\t' ? ' ' : '?');
            at += is_control;
        } else {
            bytes_add_byte(to, text[at]);
        }
    }
}

static void add_marked(struct bytes *to, const struct bytes *line, uint64_t column) {
    uint64_t left_out = column > SHOWN_BEFORE ? column - SHOWN_BEFORE : 0;
    size_t begin = bytes_of_characters(line, 0, left_out);
    size_t length = bytes_of_characters(line, begin, SHOWN_CHARACTERS);
    bytes_add_text(to, left_out > 0 ? "  .." : "    ");
    add_part(to, line->data + begin, length);
    bytes_add_text(to, begin + length < line->length ? "..\n    " : "\n    ");
    for (uint64_t at = left_out + 1; at < column; at++) {
        bytes_add_byte(to, ' ');
    }
    bytes_add_text(to, "^\n");
}

void add_source_line(struct bytes *to, const char *path, struct place place) {
    struct bytes line = NO_BYTES;
    FILE *file = place.line > 0 && is_file(path) ? fopen(path, "re") : NULL;
    if (file == NULL) {
        return;
    }
    skip_lines(file, place.line - 1);
    bool is_whole = read_line(file, &line);
    bool has_mark = place.line == 1 && line.length >= 3 && memcmp(line.data, "\xEF\xBB\xBF", 3) == 0;
    bytes_cut_front(&line, has_mark ? 3 : 0);
    bool is_shown = is_whole && !line.failed && line.length > 0 && is_utf_8(line.data, line.length) && memchr(line.data, '\0', line.length) == NULL;
    if (is_shown && place.column <= line.length + 1) {
        add_marked(to, &line, place.column);
    }
    fclose(file);
    bytes_free(&line);
}
