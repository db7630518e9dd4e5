/* The documents to judge, one after the other: those that are given, those in folders, and those in a list. */
#ifndef DOCUMENTS_H
#define DOCUMENTS_H

#include "options.h"
#include "program.h"

/* A document, or the reason why a name gives none. */
struct document {
    char *name; /* NULL: out of memory */
    bool is_failed;
    struct bytes why; /* why there is no document */
};

struct names; /* the names in a folder, in their order */

struct documents {
    const struct options *options;
    struct streams streams;
    size_t next;         /* the next of the documents that are given */
    struct source list;  /* of --files-from */
    bool list_is_begun;
    bool list_has_ended;
    struct bytes waiting; /* bytes of the list that were read */
    size_t used;          /* how many of these were names that came already */
    bool is_separated;    /* what separates the names is known */
    char separator;
    struct names **folders; /* those that are being searched, the innermost last */
    size_t depth;
    size_t capacity;
    bool input_was_named;
    bool has_ended;
    uint64_t known; /* how many there are, if that is known at the start; else 0 */
};

void documents_open(struct documents *documents, const struct options *options, struct streams streams);

/* Gets the next document, which the caller then owns. False: there is none. A name of a list is there as soon as it was read with its end, so a call
 * may wait for the next one. */
bool documents_next(struct documents *documents, struct document *document);
void documents_close(struct documents *documents);
void document_free(struct document *document);

#endif
