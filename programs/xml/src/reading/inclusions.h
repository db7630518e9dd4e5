/* Texts of entities that libxml2 gets as if the document had them in the place of references (XML 1.0, 4.4.2 and 4.4.8): those of long entities, and of those
 * that may refer to one. libxml2 takes no text of more than 2,147,483,647 bytes. It gets these in pieces, as it does the document, with less of long markup.
 *
 * Behind each text it gets a reference with a secret name. So the end of the text is found, and nothing that begins in it goes on behind it (4.3.2). The text
 * and that reference have offsets, as what the document has. All of them have the place of the reference to the entity. */
#ifndef INCLUSIONS_H
#define INCLUSIONS_H

#include "bytes.h"
#include "fault.h"

#include <stdint.h>

#ifndef LONGEST_ENTITY
#define LONGEST_ENTITY 32000000 /* bytes of the text of an entity that libxml2 holds itself */
#endif

enum { END_NAME_BYTES = 32 /* more than the secret name has */ };

/* A text that libxml2 has not got to its end. */
struct included_text {
    struct span rest;
    struct bytes own;   /* the text, if it was written for this */
    bool is_parameter;  /* of a parameter entity */
    struct bytes later; /* what libxml2 gets behind the text, .. */
    uint64_t looked;    /* .. and offsets of the feed in there; 0: they are before */
    uint64_t searched;
};

/* An entity whose text libxml2 reads. */
struct inclusion {
    const void *entity; /* by which it is known */
    size_t depth;       /* how many elements are open around it */
    bool has_end;       /* the text was read to its end: the reference is at this offset, .. */
    uint64_t end;
    uint64_t included;  /* .. or as many bytes behind that as were included since so many were: they are before it */
};

/* A part of the text that the document has not: where it begins and ends. */
struct included_part {
    uint64_t begin, end;
    struct place place; /* that of the reference to the entity */
};

/* Set it to zero. */
struct inclusions {
    struct included_text *texts; /* the innermost last */
    size_t text_count;
    size_t text_capacity;
    struct inclusion *open; /* the innermost last */
    size_t count;
    size_t capacity;
    struct included_part *parts; /* the outermost ones whose places may be asked for. The last one may be open */
    size_t part_count;
    size_t part_capacity;
    uint64_t included; /* the bytes of all texts so far, with the references behind them */
    size_t held;       /* the bytes that are held of texts */
    char end_name[END_NAME_BYTES]; /* the secret one */
};

void inclusions_free(struct inclusions *inclusions);

/* Whether the name is the secret one. */
static inline bool is_end_name(const struct inclusions *inclusions, const char *name) {
    return inclusions->end_name[0] != '\0' && strcmp(inclusions->end_name, name) == 0;
}

/* Whether libxml2 reads the text of the entity, or of one in it. */
bool is_included(const struct inclusions *inclusions, const void *entity);

/* Begins with the text, which is taken, at the offset. False: out of memory. */
bool inclusions_open(struct inclusions *inclusions, struct inclusion entity, struct included_text *text, struct included_part part);

/* Adds a piece of the innermost text to what libxml2 gets, of which the first byte has the offset. Returns whether it is the last one: with it came the
 * reference, and what is later, which begins at the offset `later`. Then the text is the one that ended, which has no bytes any more. */
bool inclusions_read(struct inclusions *inclusions, struct bytes *to, uint64_t begin, struct included_text *ended, uint64_t *later);

/* The offset of the reference behind the innermost text; UINT64_MAX: it is not known, or there is none. */
uint64_t inclusion_end(const struct inclusions *inclusions);

/* The offset up to which libxml2 gets texts of entities from the outermost one on; UINT64_MAX: it is not known; 0: it gets none. */
uint64_t included_up_to(const struct inclusions *inclusions);

/* How many elements are open around the innermost entity; 0: there is none. */
static inline size_t inclusion_depth(const struct inclusions *inclusions) {
    return inclusions->count == 0 ? 0 : inclusions->open[inclusions->count - 1].depth;
}

/* Ends the innermost entity. The offset is behind the reference. */
void inclusions_close(struct inclusions *inclusions, uint64_t offset);

/* The part in which the offset is; NULL: there is none. */
const struct included_part *included_part_at(const struct inclusions *inclusions, uint64_t offset);

/* Forgets the parts that end at or before the offset. */
void inclusions_forget(struct inclusions *inclusions, uint64_t offset);

#endif
