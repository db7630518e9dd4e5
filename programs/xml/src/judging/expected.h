/* What could have come at a place of a document, as the library tells it. */
#ifndef EXPECTED_H
#define EXPECTED_H

#include "library_calls.h"

#include <stdint.h>

enum wanted_kind {
    WANTED_NAME,
    WANTED_NAMESPACE, /* every name of it */
    WANTED_ANY        /* every name */
};

/* A class of names. Classes are named by their indexes. The index 0 is none. */
struct wanted_class {
    enum wanted_kind kind;
    struct span uri;
    struct span local;
    uint32_t excepted; /* the first class that is left out */
    uint32_t next;     /* the next one beside it */
};

/* A parameter of a datatype. */
struct wanted_parameter {
    struct span name;
    struct span value;
};

/* A value, or a datatype. */
struct wanted_text {
    bool is_value;
    struct span library;
    struct span name;
    struct span text;         /* of a value */
    uint32_t first_parameter; /* of a datatype: the index of the first one, .. */
    uint32_t parameter_count; /* .. and how many there are, in the order of the schema */
};

struct expected {
    struct bytes written; /* the names and texts are parts of it */
    struct wanted_class *classes;
    struct wanted_text *texts; /* each is there once */
    struct wanted_parameter *parameters;
    uint32_t class_count, class_capacity;
    uint32_t text_count, text_capacity;
    uint32_t parameter_count, parameter_capacity;
    uint32_t first; /* of the elements that may start, or of the attributes of a tag, each of which is there once */
    uint32_t required; /* the first of those that the tag must have: names */
    bool has_text;  /* a text that is not blank may come */
    bool failed;    /* memory ran out */
};

/* Gets the text of what may come next in the document in progress. False: memory ran out. */
bool expected_get(rncv_schema *schema, struct bytes *written);

/* Gets the text of what the tag of an element of this name may have, if it starts next in the document in progress. False: memory ran out. */
bool expected_get_tag(rncv_schema *schema, struct span uri, struct span local, struct bytes *written);

/* Gets the text of what could have come in place of the text directly before the event after which nothing can follow. False: memory ran out. */
bool expected_get_in_place(rncv_schema *schema, struct bytes *written);

/* Gets the text of what a start of this name may have behind these attributes, and of what the value of the attribute with the other name may be there.
 * `is_left`: something is left behind the attributes; if not, the text is empty. False: memory ran out. */
bool expected_get_options(rncv_schema *schema, const struct event_name *name, const rncv_attribute *attributes, size_t count, const struct event_name *named,
                          struct bytes *written, bool *is_left);

/* Reads such a text. False: memory ran out. Close it in each case. */
bool expected_open(struct expected *expected, struct span written);
void expected_close(struct expected *expected);

/* Whether an element of this name may start, or whether the tag may have an attribute of this name. */
bool expected_has(const struct expected *expected, struct span uri, struct span local);

#endif
