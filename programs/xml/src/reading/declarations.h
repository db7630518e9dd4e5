/* What a document's DTD declares, and what is left out of the document since a part of its DTD is not read.
 *
 * No file is opened for an entity, unless the source says beside which path. A document that needs one that was not read is refused. */
#ifndef DECLARATIONS_H
#define DECLARATIONS_H

#include "feed.h"

#include <libxml/hash.h>

/* A declaration of a namespace that an element has by default. */
struct namespace_default {
    char *element;
    char *name; /* `xmlns` or `xmlns:p` */
    char *value;
};

/* An entity of our own beside one of libxml2: the text of an external entity, a text that `entity_text.h` writes, or a second copy of a parameter entity.
 *
 * libxml2 reads a subset in steps: blanks with references among them, a declaration, and a reference directly behind that. It takes it for an error if a step
 * ends at the place in memory at which it began. So a parameter entity is read from two places in turn. */
struct twin {
    xmlEntity entity;
    bool is_next;
    struct twin *written; /* of a general entity: the one with the text for content, .. */
    struct twin *marked;  /* .. and with the text for values of attributes; NULL: it is not made yet */
    struct twin *shallow; /* of a parameter entity whose models libxml2 does not get as they are: another copy, which it gets in the entity's place */
    struct twin *before;  /* the twin that was made before this one */
    struct twin *outer;   /* the twins of the entity into whose text that of this one is being put */
    bool is_open;         /* its text is being put somewhere, or entities into its text */
    enum { BALANCE_UNKNOWN, BALANCED, UNBALANCED } balance; /* whether the text of a general entity may be put into content */
};

/* Parameter entities whose texts were put in front of others (nested_parameters.h). */
struct nested_parameters {
    xmlChar *room; /* what is left of these texts is at its end */
    size_t size;
    struct nested_parameter *open; /* those that were not read to their ends */
    size_t count;
    size_t capacity;
    xmlHashTablePtr names; /* of these */
};

enum {
    MOST_GROWTH = 100, /* how many times as long as the document may be what entities and defaults give, above some bytes */
#ifndef LEVELS_OF_LIBXML2
    LEVELS_OF_LIBXML2 = 500 /* entities in one another that libxml2 reads. It calls itself for each, and goes some 510 levels down */
#endif
};

struct declarations {
    struct feed *feed;
    const struct event_sink *sink; /* gets notes */
    struct place doctype;      /* of the document type */
    bool has_dropped;          /* libxml2 has dropped a parameter entity, so that a later declaration of it would count */
    bool is_unread;            /* a parameter entity was not read: what is declared after it may not count */
    bool has_blank_references; /* an entity has a reference to a blank other than a space */
    bool has_marks;            /* libxml2 has marks for such references, which may be in attributes from now on */
    bool has_skipped;          /* a reference to an entity that is not declared was passed over */
    size_t between;            /* of the inputs of libxml2 so many, from the outermost on, were begun between declarations */
    bool has_long;             /* there is a long entity (inclusions.h), so entities that refer to others are included too */
    bool has_long_parameter;   /* the same for parameter entities */
    size_t referring;          /* how many general entities refer to others */
    xmlHashTablePtr heights;   /* how many entities are in one another in an entity, and one more; 1: that is being found out */
    struct nested_parameters nested;
    uint64_t loaded;           /* the bytes of external entities that were read */
    uint64_t written;          /* the bytes of texts that were written for libxml2 */
    uint64_t expanded;         /* the bytes of entities that were put in the place of references, and the cost of that */
    struct namespace_default *defaults;
    size_t default_count;
    size_t default_capacity;
    xmlHashTablePtr counts; /* how many attributes with defaults an element has, and which attributes it has */
    int table_size;         /* how many elements had defaults when libxml2's table of them was last made larger */
    xmlEntity nothing;      /* is read instead of a parameter entity that is not loaded, or that has blanks alone */
    xmlChar ends[2];        /* the ends of texts, at which it is read in turn */
    bool is_second;         /* whose turn it is, of the two places of an entity without declarations */
    struct twin *twins;
    xmlEntity plain;        /* an entity of text alone, which libxml2 takes as it takes `&lt;` */
    xmlEntity skipped;      /* is read instead of an entity that is not declared */
    xmlEntity marked;       /* is read instead of one of which libxml2 does not get the text in a value, .. */
    char mark[LEFT_OUT_MARK + 1]; /* .. but this mark */
    uint64_t value_at;      /* the offset of the markup in which entities have given .. */
    uint64_t given;         /* .. so many bytes of values */
    struct twin *open;      /* the twins of the innermost entity into whose text others are being put */
    size_t open_count;
    bool fills_content;     /* texts are put in the place of references in content too, and not in values alone */
};

void declarations_open(struct declarations *declarations, struct feed *feed, const struct event_sink *sink);
void declarations_free(struct declarations *declarations);

/* Reads the external DTD, if that is wanted. */
void declarations_external(struct declarations *declarations, const xmlChar *name, const xmlChar *public, const xmlChar *system);

/* The input that libxml2 is to read for the external DTD. */
xmlParserInputPtr declarations_input(struct declarations *declarations, const xmlChar *public, const xmlChar *system);

/* The handlers of libxml2 for declarations. */
void declarations_subset(struct declarations *declarations, const xmlChar *name, const xmlChar *public, const xmlChar *system);
void declarations_entity(struct declarations *declarations, bool is_parameter, xmlChar *text);

/* Notes that libxml2 has the entity: a document that stands alone may not refer to one that is declared in a parameter entity. */
void declarations_declared(struct declarations *declarations, const xmlChar *name);
void declarations_names(struct declarations *declarations, const xmlChar *element, const xmlElementContent *content);

/* Refuses a declaration if a processor that reads all of the DTD may read it otherwise, or not take it. */
void declarations_check_behind(struct declarations *declarations);

/* Refuses a name that is no QName. */
void declarations_check_name(struct declarations *declarations, const xmlChar *name);

/* Counts bytes that the document gives without having them. False: they are too many. */
bool declarations_count(struct declarations *declarations, uint64_t bytes);

/* Counts bytes of texts that are written for libxml2. False: they are too many, and there is a fault. */
bool declarations_count_written(struct declarations *declarations, uint64_t bytes);

/* Refuses the document, in which something has more bytes than may be read or written for one purpose. The words have `%s` in the place of their number. */
void declarations_refuse_part(struct declarations *declarations, const char *what);

/* The most entities that may be in one another. */
size_t declarations_most_levels(const struct declarations *declarations);

/* Refuses a document in which there are more. */
void declarations_refuse_levels(struct declarations *declarations);

/* Whether libxml2 reads the text of a parameter entity that a declaration refers to. */
bool declarations_is_inside(const struct declarations *declarations);

/* Whether each entity that is referred to has to be declared in the document itself (XML 1.0, 4.1, WFC: Entity Declared). */
bool declarations_are_all(const struct declarations *declarations);

/* Whether external entities are read. */
bool loads_external(const struct declarations *declarations);

/* Whether libxml2 reads the text of an entity, or the external DTD. */
bool is_in_entity(const struct feed *feed);

/* The external entity as an internal one of this type. It is read once. NULL: it was not read, and there is a fault. */
xmlEntityPtr declarations_loaded(struct declarations *declarations, xmlEntityPtr entity, xmlEntityType type);

/* The text of an internal entity; of a long one libxml2 has a mark. */
struct span declarations_text(const struct declarations *declarations, const xmlEntity *entity);
bool declarations_is_long(const struct declarations *declarations, const xmlEntity *entity);

/* Keeps the text of a long entity, which is taken, and writes its mark. */
void declarations_keep_long(struct declarations *declarations, bool is_parameter, struct bytes *text, char mark[LEFT_OUT_MARK + 1]);

/* The entity of a name, or NULL. */
xmlEntityPtr declarations_entity_of(struct declarations *declarations, struct span name);

/* Makes the content models in a text of declarations shallow, and leaves out choices (models.h). Refuses a text with too many of them. */
void declarations_flatten(struct declarations *declarations, char *text, size_t length);
void declarations_flatten_twin(struct declarations *declarations, struct twin *twin);

/* A new entity of our own, without text. NULL: out of memory, and there is a fault. */
struct twin *declarations_twin(struct declarations *declarations);

/* Room for a text, which stays until the document has been read. NULL: out of memory, and there is a fault. */
xmlChar *declarations_room(struct declarations *declarations, size_t size);
void declarations_out_of_memory(struct declarations *declarations);

/* Says why the document is outside the profile. */
void declarations_refuse(struct declarations *declarations, const char *what);

/* Notes something about a name, which may be NULL. The words have `%s` in its place. */
void declarations_note(struct declarations *declarations, struct place place, const char *what, const xmlChar *name);

/* The place of the reference, the declaration or the tag at which libxml2 is. */
struct place declarations_place(struct declarations *declarations);

/* The place of the reference to a parameter entity that libxml2 has read, or of the document type if the external DTD has it. */
struct place declarations_parameter_place(struct declarations *declarations);

static inline const char *plain(const xmlChar *text) {
    return text == NULL ? "" : (const char *)text;
}

#endif
