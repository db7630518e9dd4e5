/* Where the parts of a text come from that was written from another file. */
#ifndef ORIGINS_H
#define ORIGINS_H

#include "fault.h"

/* From this byte of the text on, up to the next origin, the text was written for what is at the place in the other file. */
struct origin {
    size_t at;
    struct place place;
};

/* The origins of a text, the first one at its byte 0. None: the text is the file itself. */
struct origins {
    struct origin *list;
    size_t count;
    size_t capacity;
};

/* False: out of memory. */
bool origins_add(struct origins *origins, size_t at, struct place place);
void origins_free(struct origins *origins);

/* The place from which a byte of the text comes. */
struct place place_at(const char *text, size_t length, const struct origins *origins, size_t at);

/* The place from which a place of the text comes. */
struct place place_before(const char *text, size_t length, const struct origins *origins, struct place place);

#endif
