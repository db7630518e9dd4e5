/* Annotations of the compact syntax. The library's grammar does not have all: not elements among components, `a:b [ .. ]`, and not those that follow a pattern
 * or a name class, `>> a:b [ .. ]`. The library skips the annotations that come before, `[ .. ]`, whatever is in them, and takes `##` as a comment. (Compact
 * Syntax, section 3) */
#ifndef SCHEMA_ANNOTATIONS_H
#define SCHEMA_ANNOTATIONS_H

#include <stdbool.h>
#include <stddef.h>

struct annotations {
    bool is_changed;   /* a byte */
    const char *fault; /* the rule for annotations that a name breaks, in words; NULL: none */
    size_t at;         /* where that name is */
};

/* Writes blanks over the annotations that the library does not have. Line ends stay, and so does all else: each offset and line stays true. Columns do not,
 * where an annotation has a character of several bytes: count them in the bytes as they were.
 *
 * A file that the library refuses for its size or for a character (S2, S3, S4) is left as it is.
 *
 * Nothing else becomes a sentence by that: the first token that continues no sentence of the whole compact syntax becomes a `]`, which the library refuses
 * there, and what follows it becomes blank. So does a name in an annotation, also in one `[ .. ]`, whose prefix is not declared, whose namespace may not be
 * there, or which is a second attribute of that name; and the annotation before it becomes blank.
 * False: out of memory, and nothing is changed. One pass over the file; the attributes of each annotation are sorted. */
bool annotations_blank(char *bytes, size_t length, struct annotations *found);

#endif
