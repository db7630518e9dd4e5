/* The lists of a schema that may be at a place of a document, and a schema that takes their tokens one by one. */
#ifndef LISTS_H
#define LISTS_H

#include "declared.h"

/* Parts of the simple form. */
struct part_list {
    struct part *parts;
    uint32_t count, capacity;
    bool failed; /* memory ran out */
};

#define NO_PARTS {NULL, 0, 0, false}

/* Finds what may be in an element of this name, or in its attribute with the other name, if that is not NULL. Each is there once. False: that is not known. */
bool lists_contents(struct declared *declared, const struct event_name *element, const struct event_name *attribute, struct part_list *contents);

/* Finds what is in the braces of the lists of a content; nothing if it may have another text than a list. False: that is not known. */
bool lists_in(struct declared *declared, struct part content, struct part_list *lists);

/* Writes a schema of these lists: an element `l`, and in it an element `t` for each token. False: it is too large, or memory ran out. */
bool lists_schema(struct declared *declared, const struct part_list *lists, struct bytes *text);

void part_list_free(struct part_list *list);

#endif
