/* What is told of namespaces that are long, or of which libxml2 has a part or marks. It has one text for each namespace, so pointers tell them, and looking one
 * up takes no time that grows with its length. */
#ifndef LONG_URIS_H
#define LONG_URIS_H

#include "long_names.h"

enum { LONG_URI = 4096 /* bytes */ };

struct long_uri {
    const void *uri; /* as libxml2 has it; NULL: the place has none */
    struct span told;
};

/* Set it to zero. */
struct long_uris {
    struct long_uri *places; /* a table by the pointers */
    size_t count;
    size_t capacity;
    struct long_names texts; /* what is told, each text once */
};

void long_uris_free(struct long_uris *uris);

/* Whether two namespaces that were told are one. Long ones are there once, so pointers tell them. */
static inline bool uris_are_same(struct span one, struct span other) {
    return one.length == other.length && (one.data == other.data || (one.length < LONG_URI && memcmp(one.data, other.data, one.length) == 0));
}

/* What is told of a namespace; NULL: it is none of these. */
const struct span *long_uris_told(const struct long_uris *uris, const void *uri);

/* Keeps what is told of a namespace, which is taken: free it no more. NULL: out of memory. */
const struct span *long_uris_put(struct long_uris *uris, const void *uri, struct bytes *told);

/* How many bytes they have. */
static inline size_t long_uris_held(const struct long_uris *uris) {
    return uris->texts.held + uris->capacity * sizeof *uris->places;
}

#endif
