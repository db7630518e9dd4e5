/* Shortens what libxml2 gets of long markup: it takes no name and no identifier of more than 10,000,000 bytes, and no value of more than 1,000,000,000.
 *
 * What it does not get is in a run (runs.h), so it is well-formed. A name has a number in its place (long_names.h), and a part of a value, or of the literal of
 * an entity, a mark (left_out.h). Such a part goes on behind references: what they give is in it. The rest of blanks, zeros and identifiers is left out. */
#ifndef SHORTENING_H
#define SHORTENING_H

#include "left_out.h"
#include "long_names.h"
#include "long_uris.h"
#include "runs.h"

#ifndef LONGEST_HELD
#define LONGEST_HELD 32000000 /* bytes that libxml2 holds of a tag or a declaration before values are shortened */
#endif

enum {
    LOOKED_BYTES = LONGEST_NAME / 2, /* of markup, before it is looked at: libxml2 gets fewer than the others at once. The feed keeps more */
    KEPT_BYTES = 8192,               /* of a run or a literal that libxml2 always gets, so that it is in there when the rest is left out */
    KEPT_ZEROS = 16,                 /* the last of a reference, so that there is room for another number */
    IN_PLACE_BYTES = 64              /* more than libxml2 gets in the place of what is left out */
};

/* Adds what the reference at the start of the text, to an entity of the document, gives in a value. Returns its length; 0: it may not be there. */
typedef size_t expand_reference(void *context, struct span text, struct bytes *to);

/* What comes next of the markup that is read, of which libxml2 has got all before the offset. */
struct offered {
    uint64_t markup;   /* where it begins */
    uint64_t offset;
    struct span next;  /* what libxml2 may get. It ends with a whole character */
    struct span known; /* this, and what is known behind it */
    size_t held;       /* the bytes that libxml2 holds */
};

/* Set it to zero before the first byte of a document. */
struct shortening {
    struct run_scan scan;
    uint64_t markup;     /* where the markup begins that was looked at, if `scan.looked` is not zero */
    uint64_t identifier; /* where the literal of an identifier begins, or would if it had no more than libxml2 gets */
    struct bytes text;   /* of the name that goes on, or what is left out of a value */
    struct long_names names;
    struct left_out left;
    struct long_uris uris;
    struct bytes whole;  /* room for the values of a tag that are written again */
    expand_reference *expand; /* with this .. */
    void *context;            /* .. context */
    bool failed;         /* memory ran out */
};

void shortening_free(struct shortening *shortening);

/* Looks at what libxml2 has of the markup, which may be in a document type, once it is long. Here the offset is that of `next`, which libxml2 has got. */
void shortening_look(struct shortening *shortening, const struct offered *offered, bool is_declared);

/* Forgets how far markup was looked at, which libxml2 gets again. */
void shortening_look_again(struct shortening *shortening);

/* Whether the tag was looked at up to the offset, which is behind an attribute. Then attributes that begin there may be passed over. */
bool shortening_is_behind_attribute(const struct shortening *shortening, uint64_t markup, uint64_t offset);
void shortening_pass_attribute(struct shortening *shortening, size_t length);

/* The offset behind the reference in content that is the markup; where it begins if its end was not looked at. */
uint64_t shortening_behind(const struct shortening *shortening, uint64_t markup);

/* Leaves out blanks from the offset on, up to which libxml2 has read nothing but blanks. */
void shortening_begin_blanks(struct shortening *shortening, uint64_t offset);

/* Goes on at the offset in a declaration of attributes, outside of literals: choices of this markup were left out before. */
void shortening_pass_choices(struct shortening *shortening, uint64_t markup, uint64_t offset);

/* How many bytes libxml2 may get at once, of which it asks for `most`, so that the place where a name is cut is well within those that it gets then or next. */
size_t shortening_most(const struct shortening *shortening, uint64_t offset, size_t most);

/* How many of the bytes that libxml2 gets next come before those that are left out; SIZE_MAX: none is. */
size_t shortening_cut_in(struct shortening *shortening, const struct offered *offered);

/* Leaves out bytes at the start of the text. Returns how many. */
size_t shortening_leave_out(struct shortening *shortening, struct span text);

/* Whether what is left out may go on with a reference, which is at the start of the text. */
bool shortening_may_refer(const struct shortening *shortening, struct span text);

/* Leaves out the reference at the start of the text, unless it is one to an entity of the document in a value. Returns its length; 0: it is not left out. */
size_t shortening_leave_reference(struct shortening *shortening, struct span text);

/* Leaves out a reference of this length, which gives the text. */
void shortening_leave_given(struct shortening *shortening, size_t length, struct span text);

/* The rest of the run is left out: writes what libxml2 gets in its place. Returns the length. */
size_t shortening_close(struct shortening *shortening, char in_place[IN_PLACE_BYTES]);

/* How many bytes are held. */
size_t shortening_held(const struct shortening *shortening);

#endif
