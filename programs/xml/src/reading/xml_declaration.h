/* The XML declaration: `<?xml version="1.0" encoding="UTF-8" standalone="yes"?>` (XML 1.0, productions 23 to 26, 32, 80 and 81). */
#ifndef XML_DECLARATION_H
#define XML_DECLARATION_H

#include "bytes.h"

struct xml_declaration {
    bool is_there;
    bool is_whole;         /* its end is in the text */
    size_t length;         /* up to its end */
    struct span version;   /* the values are parts of the text */
    struct span encoding;  /* without data: it names none */
    const char *wrong;     /* what is wrong with its form; NULL: nothing */
};

/* Reads the declaration at the start of a text. The text ends where it ends, or anywhere behind that. An external entity may have a text declaration, which
 * names an encoding and need not have a version (production 77). */
struct xml_declaration xml_declaration_of(struct span text, bool is_external);

/* Whether a span is this text, in ASCII and without regard to case. */
bool is_named(struct span span, const char *name);

#endif
