/* Reads an XML document by libxml2, as a stream, and hands what is in it to a receiver: starts, texts and ends, with their places. */
#ifndef EVENTS_H
#define EVENTS_H

#include "fault.h"

/* A name, until the receiver returns. Its texts are there until the document has been read. Their data is never NULL. */
struct event_name {
    struct span prefix; /* as it is written; empty: there is none */
    struct span local;
    struct span uri; /* of its namespace; empty: it has none, or its prefix is not declared */
};

struct event_attribute {
    struct event_name name;
    struct span value;
};

/* A declaration of a namespace. The prefix is empty for the default one. */
struct event_declaration {
    struct span prefix;
    struct span uri;
};

struct start_event {
    struct place place;
    const struct event_name *name;
    size_t depth; /* how many elements are open, with this one */
    const struct event_declaration *declarations; /* also those that are there by default */
    size_t declaration_count;
    const struct event_attribute *attributes; /* without the declarations */
    size_t attribute_count;
};

/* The receiver: all that is known of a reader. If it wants no more, it sets the fault of the reading. Each event has its place: a tag where it begins, the end
 * of an empty element behind its tag, and what an entity gives at the reference. */
struct event_sink {
    void (*start)(void *context, const struct start_event *start);
    /* A text, or a part of one: those that follow each other are one. The place is that of its first character that is no blank, or where it begins. */
    void (*text)(void *context, struct place place, struct span text, bool is_blank);
    void (*end)(void *context, struct place place, const struct event_name *name);
    void (*instruction)(void *context, struct place place, struct span target, struct span data);
    void (*note)(void *context, struct place place, const char *what); /* what is left out of the document without harm to its form */
    void (*flush)(void *context); /* comes before more of the document is read, which may take long; NULL: not wanted */
    void (*last)(void *context);  /* comes behind the last event, also after a fault, while the texts of names are there; NULL: not wanted */
    size_t (*held)(const void *context); /* how many bytes it keeps of the document; NULL: none that grow with it */
    void *context;
    bool checks_names; /* a tag that breaks Namespaces in XML is a fault, with its clause */
    size_t depth;      /* the most elements that may be open, and entities, or brackets of a declaration, in one another (always 500); 0: USUAL_DEPTH */
    size_t memory;     /* the most bytes that may be held of the document; 0: USUAL_MEMORY */
    size_t attributes; /* the most of a tag, with declarations of namespaces; 0: USUAL_ATTRIBUTES */
};

/* The source of the XML. `read` writes at most `size` bytes, and their number to `length`: 0 at the end. False: it failed, and the fault says why. */
struct byte_source {
    bool (*read)(void *context, char *bytes, size_t size, size_t *length, struct fault *fault);
    void *context;
    const char *beside; /* the path of the document, beside which its external DTD and entities are read; NULL: they are not */
};

enum {
    USUAL_DEPTH = 10000,
    USUAL_ATTRIBUTES = 10000,
    USUAL_MEMORY = 536870912
};

/* Reads a document. If there is no fault, the receiver has received all of it. */
void read_events(const struct byte_source *source, const struct event_sink *sink, struct fault *fault);

#endif
