/* Whether each ID is there once in a document, and what refers to one finds it. Nothing here is proved.
 *
 * It takes the starts of elements. Its memory grows with the IDs of the document and with the texts that refer to one. */
#ifndef ID_CHECK_H
#define ID_CHECK_H

#include "events.h"
#include "id_types.h"

/* What is known of a text that is an ID or refers to one. */
struct id_use {
    struct place id;        /* where it is an ID; line 0: nowhere so far */
    struct place reference; /* where it was referred to before it was an ID; line 0: nowhere */
    uint64_t order;         /* of that reference */
    uint32_t name;          /* of its attribute */
};

/* What is wrong with the IDs of a document. */
struct id_fault {
    bool is_there;
    bool is_double;     /* there are two of the ID; else there is none */
    uint64_t order;
    struct place place;
    struct place other; /* of the first one */
    uint32_t text;
    uint32_t name;      /* of the attribute */
};

struct id_check {
    const struct id_types *types;
    struct text_table texts;
    struct id_use *uses; /* of each text */
    uint32_t use_capacity;
    struct text_table names; /* of attributes, as they are written */
    struct bytes name; /* of an attribute */
    struct bytes key;
    struct place place;
    bool failed; /* memory ran out */
    uint64_t order;
    struct id_fault fault; /* the first ID that is there twice */
};

void id_check_open(struct id_check *check, const struct id_types *types);
void id_check_close(struct id_check *check);

/* Begins a document. */
void id_check_begin(struct id_check *check);

/* Takes a start. It breaks no clause. False: out of memory. */
bool id_check_take(struct id_check *check, const struct start_event *tag);

/* How many bytes are kept of the document. */
size_t id_check_held(const struct id_check *check);

/* The first fault, after all starts. */
struct id_fault id_check_end(const struct id_check *check);

#endif
