/* Which token of a text is at fault, if the text is no list that the schema allows. */
#ifndef LIST_FAULT_H
#define LIST_FAULT_H

#include "judging.h"

enum list_fault_kind {
    LIST_UNKNOWN,
    LIST_GOOD,
    LIST_WRONG, /* another token should be there */
    LIST_LONG,  /* no token should be there */
    LIST_SHORT  /* tokens are missing */
};

struct list_fault {
    enum list_fault_kind kind;
    struct span token;     /* the first one with which nothing valid can go on; not of LIST_SHORT */
    struct bytes expected; /* what could be there, as the library writes it; empty: nothing, or the lists do not agree */
};

#define NO_LIST_FAULT {LIST_UNKNOWN, {"", 0}, NO_BYTES}

/* A text of an element, or of an attribute of it, at which only lists are expected. */
struct list_text {
    const struct event_name *element;
    const struct event_name *attribute; /* NULL: it is the text of the element */
    struct span text;
    bool is_cut; /* these are its first bytes */
};

/* Finds the token by all lists that the schema has for such a text. It is told only if each of them has the fault there, so LIST_UNKNOWN comes also where they
 * do not, besides where the schema is too large or memory runs out. The judge has no document in progress. Free `expected` in each case. */
void list_fault_find(struct judge *judge, const struct list_text *text, struct list_fault *fault);

#endif
