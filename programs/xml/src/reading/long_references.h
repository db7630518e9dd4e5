/* Writes references to characters by hexadecimal numbers of many digits as decimal ones of the same length: libxml2 2.9 takes no letter as the eleventh digit,
 * and as each eleventh one behind it.
 *
 * Comments, instructions, CDATA sections and identifiers stay as they are, and so do literals of entities, where libxml2 takes all letters. */
#ifndef LONG_REFERENCES_H
#define LONG_REFERENCES_H

#include "markup_scan.h"

enum { REFERENCE_AHEAD = 16 /* bytes that are there behind what is looked at, unless the text ends */ };

/* How far a text was looked at. Set it to zero before the first byte of a document. */
struct reference_scan {
    struct markup_scan markup;
    bool has_values;   /* outside of content: a list of attributes is declared, or it is not known what is */
    bool is_long;      /* the digits of a reference are being written */
    uint64_t looked;   /* the offset up to which the text was looked at */
    uint64_t searched; /* the offset up to which no reference of the content is long, from `looked` on */
};

/* Whether the content has a long reference that was not looked at. The text begins at the offset. */
bool finds_long_reference(struct reference_scan *scan, struct span text, uint64_t begin, bool is_end);

/* Writes long references from `looked` on. It stops where the content begins. */
void write_long_references(struct reference_scan *scan, char *text, size_t length, uint64_t begin, bool is_end);

/* Writes those in the text of an entity, which is for content or has declarations. */
void write_long_references_in(char *text, size_t length, bool is_content);

#endif
