/* Finds out where a document, or a text of its DTD, has references: comments, instructions and CDATA sections have none. */
#ifndef MARKUP_SCAN_H
#define MARKUP_SCAN_H

#include "bytes.h"

#include <stdint.h>

/* What is being read. Set it to zero before the first byte of a document or of a text of its DTD. */
struct markup_scan {
    char kind;       /* the quote of a literal of a DTD, `-` of a comment, `?` of an instruction, `]` of a section; 0: none of these */
    bool is_content; /* this is the root or something behind it, or the text of an entity for content: no literals, but CDATA sections */
    uint64_t behind; /* where the beginning of a comment, an instruction or a section ends: the bytes before need no look */
};

/* Whether the byte may have to be looked at. */
static inline bool is_seen(char byte) {
    return byte == '&' || byte == '<' || byte == '"' || byte == '\'' || byte == '-' || byte == '?' || byte == ']';
}

/* Looks at the byte at the start of the text, which is at the offset. Returns whether it may begin a reference. */
bool markup_look(struct markup_scan *scan, uint64_t offset, struct span text);

#endif
