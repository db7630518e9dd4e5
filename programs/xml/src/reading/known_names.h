/* The lengths of names that libxml2 has told before. It has one text for each name, prefix and URI of a document, so pointers tell them. */
#ifndef KNOWN_NAMES_H
#define KNOWN_NAMES_H

#include "events.h"
#include "long_names.h"

#include <libxml/tree.h> /* dict.h needs it */

#include <libxml/dict.h>

enum { KNOWN_BITS = 8 };

struct known_name {
    const xmlChar *prefix;
    const xmlChar *uri;
    struct event_name name;
};

/* A table of names by their local names, each of which has one place. Before use all but the slots are set to zero. */
struct known_names {
    const xmlChar *locals[1 << KNOWN_BITS]; /* NULL: no name is in the slot */
    struct event_name other;                /* one that is not kept */
    const struct long_names *long_names;    /* those of which libxml2 has the beginning */
    struct known_name slots[1 << KNOWN_BITS];
};

/* Works the name out. Its texts are in the dictionary then, which keeps them as long as the document is read. The name is kept if they were there, and its prefix
 * is declared. `told` is what is told of the URI. NULL: out of memory. */
const struct event_name *known_name_new(struct known_names *names, xmlDictPtr dictionary, const xmlChar *local, const xmlChar *prefix, const xmlChar *uri,
                                        struct span told);

/* The place for a name with this local name. */
static inline size_t known_place(const xmlChar *local) {
    return (size_t)(((uint64_t)(uintptr_t)local * UINT64_C(0x9E3779B97F4A7C15)) >> (64 - KNOWN_BITS));
}

/* Whether the name of these texts is at the place of its local name. NULL for a prefix or URI: there is none. */
static inline bool is_known(const struct known_names *names, size_t place, const xmlChar *local, const xmlChar *prefix, const xmlChar *uri) {
    return names->locals[place] == local && names->slots[place].prefix == prefix && names->slots[place].uri == uri;
}

#endif
