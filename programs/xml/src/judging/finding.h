/* Where a document is invalid, and what the library tells of it: why, and what could have been there. */
#ifndef FINDING_H
#define FINDING_H

#include "library_calls.h"

/* A start or an end after which nothing valid can follow, and what is before it. */
struct finding {
    bool is_there;
    bool is_lost; /* its place is not known */
    bool is_end;
    struct place place;
    struct bytes name; /* of the element, as it is written */
    struct bytes expanded; /* the URI of its namespace, and its local name */
    size_t uri_length;
    rncv_reason reason;
    struct bytes expected; /* what could have come there, as the library writes it, .. */
    struct bytes tag;      /* .. what the tag could have had, if an attribute is not allowed, .. */
    struct bytes options;  /* .. what it could have had behind the attributes that are right, and as the value of the one that is wrong, .. */
    struct bytes in_place; /* .. and what could have come in place of the text, if there is one */
    bool has_options;    /* some element has these attributes that are right */
    bool is_right_alone; /* the attribute whose value is wrong is right without the others */
    bool has_text;     /* directly before it, with more than blanks */
    struct place text_place;
    struct bytes text; /* its first characters, .. */
    bool is_cut;       /* .. and not all of them */
    struct bytes around; /* the name of the element that a start is in, as it is written; empty: there is none, or it is not known */
    struct event_attribute *attributes; /* those of a start, without values but for the one that is wrong */
    size_t attribute_count;
    struct bytes texts; /* theirs */
};

/* Sets the name of the element, as it is written and expanded. */
void finding_name(struct finding *found, const struct event_name *name);

/* Asks why nothing can follow the start or end, and what could have been there. The document in progress is the one in which it is. An end has no attributes.
 * False: memory ran out. */
bool finding_ask(struct finding *found, rncv_schema *schema, struct call_room *room, const struct event_attribute *attributes, size_t count);

/* Asks what the tag could have had, if its attributes are wrong, by what may come next in the document in progress, and adds that to what is there by other
 * documents. The attributes are those of `finding_ask`. False: memory ran out. */
bool finding_ask_tag(struct finding *found, rncv_schema *schema, struct call_room *room, const struct event_attribute *attributes, size_t count);

/* The name of the element. */
struct span finding_uri(const struct finding *found);
struct span finding_local(const struct finding *found);

/* The attribute that is wrong; NULL: none is. */
const struct event_attribute *finding_attribute(const struct finding *found);

/* Whether the library tells what is wrong. */
bool finding_is_told(const struct finding *found);

/* Whether the text is wrong. */
bool finding_is_text(const struct finding *found);

void finding_free(struct finding *found);

/* Adds a name as it is written. */
void add_written(struct bytes *to, const struct event_name *name);

#endif
