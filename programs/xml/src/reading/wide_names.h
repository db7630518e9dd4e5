/* The names of attributes of a wide tag: libxml2 has not compared them. */
#ifndef WIDE_NAMES_H
#define WIDE_NAMES_H

#include "events.h"

#include <stdint.h>

/* The first attributes of a tag, by their names. Set it to zero. */
struct wide_names {
    size_t *by_name;     /* tables by hash: the number of an attribute, and one more; 0: none. By the name as it is written, .. */
    size_t *by_expanded; /* .. and by the namespace and the local name */
    size_t capacity;     /* of each: twice as many as there are attributes, and a power of two */
    uint64_t secret[2];  /* so that nobody can write many names with one hash */
};

/* Makes room for so many attributes. False: out of memory. */
bool wide_names_open(struct wide_names *names, size_t count);
void wide_names_free(struct wide_names *names);

/* Puts an attribute in. Returns the one before it that is written so, or else has the same namespace and local name; its own number if there is none. */
size_t wide_names_put(struct wide_names *names, const struct event_attribute *attributes, size_t index);

#endif
