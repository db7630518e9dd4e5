/* An element of a document that is read once more: what is in it, and what is wrong with it alone. */
#ifndef ALONE_H
#define ALONE_H

#include "event_log.h"
#include "judging.h"

/* Where a child element, or a text before one, is. */
struct mark {
    struct place place;
    uint64_t number; /* of the start among the starts and ends of the document; 0: it is a text */
};

/* An element that is open, and what is in it so far. A text beside child elements counts as blank or not, so no more is kept of it than is shown. */
struct element {
    struct event_log log; /* its declarations, its start, and its children, without what is in them; blank texts beside them are left out */
    struct mark *marks;   /* of the children and texts in the log */
    uint32_t count, capacity;
    struct bytes text; /* directly before what comes next */
    struct place text_place;
    struct place place;
    uint64_t number; /* of its start */
    uint32_t set;    /* what it may be (contexts.h) */
    bool has_declarations;
    bool has_children;
    bool is_empty; /* nothing came behind its start tag */
    bool is_begun; /* the text has a character that is no blank */
    bool is_cut;   /* no more of the text is kept */
    bool is_left;  /* the attributes are not judged, .. */
    bool is_done;  /* .. nor is the content */
    bool failed;   /* memory ran out, or it is too long */
};

/* Begins an element. It has room that is used again. */
void element_begin(struct element *element, const struct start_event *start, struct mark mark);
void element_take_text(struct element *element, struct place place, struct span text, bool is_blank);
void element_take_child(struct element *element, const struct event_name *name, struct mark mark);
void element_free(struct element *element);

/* The bytes that it has. */
size_t element_held(const struct element *element);

/* An element and what judges it. */
struct alone {
    struct judge *judge;            /* by one of the schemas for an element alone */
    const struct element *elements; /* those that are open: .. */
    size_t depth;                   /* .. the last one is judged */
    struct place end;
    uint32_t member;                /* which element of the schema it is */
    bool has_attributes;            /* the schema has them */
};

/* Finds the first start or end in the element after which nothing valid can follow: 1 is its own start; 0: there is none. False: that is not known. */
bool alone_find(const struct alone *alone, uint64_t *number);

/* Tells what is wrong there. Nothing is told that is not before `limit`, if that is a place. Returns the number of the child element that is not allowed; 0: it
 * is something else. */
uint64_t alone_tell(const struct alone *alone, uint64_t number, struct place limit, struct answer *answer);

#endif
