/* Which elements of a schema an element of a document may be, by its name and those of the elements around it. */
#ifndef CONTEXTS_H
#define CONTEXTS_H

#include "declared.h"
#include "text_table.h"

enum {
    CONTEXT_START = 0,  /* what is around the root */
    CONTEXT_UNKNOWN = 1 /* an element that the schema does not have, or not there: in it each element may be any one of its name */
};

/* Sets of elements of the schema have numbers. */
struct contexts {
    struct declared *declared;
    struct declared_list *mentioned; /* by each element, and last by the start; not known: not yet looked for */
    struct text_table sets;          /* the numbers of the elements, as bytes, behind a byte for their kind */
    struct text_table searches;      /* a set and a name */
    uint32_t *results;               /* the set that each search found */
    uint32_t capacity;
    struct bytes key;
};

/* Begins with a schema whose simple form is open. False: memory ran out. Close it in each case. */
bool contexts_open(struct contexts *contexts, struct declared *declared);
void contexts_close(struct contexts *contexts);

/* Finds the set of what an element with this name may be in an element of the set `around`; CONTEXT_UNKNOWN: the schema does not have it. `is_misplaced`: it
 * is in an element that is known, and not expected there. False: memory ran out, or there are too many names. */
bool contexts_find(struct contexts *contexts, uint32_t around, const struct event_name *name, uint32_t *set, bool *is_misplaced);

/* How many elements a set has, and one of them. */
uint32_t contexts_count(const struct contexts *contexts, uint32_t set);
uint32_t contexts_member(const struct contexts *contexts, uint32_t set, uint32_t index);

#endif
