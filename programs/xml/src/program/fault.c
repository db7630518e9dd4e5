#include "fault.h"

#include <stdarg.h>
#include <stdio.h>

enum {
    MOST_WORD = 1000, /* bytes of a word that is shown whole */
    SHOWN_BYTES = 200 /* the beginning of a longer one */
};

/* Whether the byte is a character by itself, and in no name. */
static bool is_sign(char byte) {
    return byte > ' ' && strchr("'\">);:,/", byte) != NULL;
}

/* Copies a word to the front of the text, where so many bytes were kept. Returns how many are then. */
static size_t keep_word(char *text, size_t kept, size_t begin, size_t end) {
    if (end - begin <= MOST_WORD) {
        memmove(text + kept, text + begin, end - begin);
        return kept + (end - begin);
    }
    size_t shown = SHOWN_BYTES;
    size_t signs = end;
    while (((unsigned char)text[begin + shown] & 0xC0) == 0x80) {
        shown--;
    }
    while (is_sign(text[signs - 1])) {
        signs--;
    }
    signs = end - signs < shown ? signs : end;
    memmove(text + kept, text + begin, shown);
    memcpy(text + kept + shown, "..", 2);
    memmove(text + kept + shown + 2, text + signs, end - signs);
    return kept + shown + 2 + (end - signs);
}

void shorten_words(struct bytes *line) {
    size_t kept = 0;
    size_t begin = 0;
    while (begin < line->length) {
        const char *blank = memchr(line->data + begin, ' ', line->length - begin);
        size_t end = blank == NULL ? line->length : (size_t)(blank - line->data);
        kept = keep_word(line->data, kept, begin, end);
        if (blank != NULL) {
            line->data[kept++] = ' ';
        }
        begin = end + 1;
    }
    line->length = kept;
}

void fault_set(struct fault *fault, enum fault_kind kind, struct place place, const char *format, ...) {
    if (fault->kind != FAULT_NONE) {
        return;
    }
    fault->kind = kind;
    fault->place = place;
    va_list values;
    va_start(values, format);
    int length = vsnprintf(NULL, 0, format, values);
    va_end(values);
    if (length < 0 || !bytes_reserve(&fault->what, (size_t)length + 1)) {
        fault->kind = FAULT_MEMORY;
        fault->place = (struct place){0, 0};
        return;
    }
    va_start(values, format);
    vsnprintf(fault->what.data, (size_t)length + 1, format, values);
    va_end(values);
    fault->what.length = (size_t)length;
    shorten_words(&fault->what);
}

void fault_set_clause(struct fault *fault, int clause, struct place place, const char *what) {
    if (fault->kind == FAULT_NONE) {
        fault_set(fault, FAULT_MALFORMED, place, "%s", what);
        fault->clause = fault->kind == FAULT_MALFORMED ? clause : 0;
    }
}

void fault_free(struct fault *fault) {
    bytes_free(&fault->what);
    *fault = (struct fault)NO_FAULT;
}
