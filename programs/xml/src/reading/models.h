/* Makes the content models of a DTD shallow before libxml2 reads them: it calls itself for each bracket in a bracket, and takes some two thousand.
 *
 * From the bracket FLAT_DEPTH on, libxml2 gets one list of all names that are inside: blanks for the brackets, and commas for all separators. The text keeps
 * its length, and libxml2 still reads each name. What breaks the productions 47 to 50 of XML 1.0 stays as it is, so that libxml2 finds it at its place. */
#ifndef MODELS_H
#define MODELS_H

#include "bytes.h"
#include "choices.h"

#include <stdint.h>

enum {
    FLAT_DEPTH = 16,       /* the last bracket that libxml2 gets */
    DEEP_BRACKET = '\x01', /* libxml2 gets this for a bracket above the limit, where a name or a bracket may be. No document has it */
    LONGEST_BEGINNING = 9, /* `<!ELEMENT` or `<!ATTLIST` */
    PARTING_BYTES = 96     /* more than libxml2 gets where a model is parted */
};

/* What is being read of a document or of declarations. */
enum model_part {
    MODEL_OUTSIDE, /* nothing of these, or a declaration that is of no element */
    MODEL_LITERAL,
    MODEL_BEGINNING, /* of markup */
    MODEL_COMMENT,
    MODEL_INSTRUCTION,
    MODEL_INSIDE,    /* the declaration of an element */
    MODEL_REFERRING, /* one that refers to a parameter entity: it is not changed */
    MODEL_ATTRIBUTES, /* the declaration of attributes */
    MODEL_END        /* nothing more is changed: the root or a section has begun, or libxml2 finds a fault here */
};

/* How far a text was handed to libxml2. Set it to zero, but for the limit, before its first byte. Free the separators. */
struct model_scan {
    size_t most; /* brackets in one another */
    enum model_part part;
    char quote;                   /* of the literal */
    char read[LONGEST_BEGINNING]; /* of the beginning */
    size_t count;            /* how many bytes were read of it, or of the end of a comment or an instruction; else 0 */
    size_t depth;            /* of brackets */
    bool is_mixed;           /* the model has `#PCDATA` */
    bool is_after;           /* a name or a closed bracket was last, and no separator. This and the next are known from FLAT_DEPTH on */
    bool is_closed;          /* such a bracket is directly before, and libxml2 does not get it */
    struct choice_scan choices; /* in the declaration of attributes */
    struct bytes separators; /* those of the open brackets, the outermost first; 0: none yet */
};

/* Makes the models in the next bytes shallow. If memory runs out, the separators say so. */
void make_shallow(struct model_scan *scan, char *text, size_t length);

/* Goes back to where nothing of declarations is read: libxml2 gets again what was handed to it. */
void models_look_again(struct model_scan *scan);

/* Where the model at the start of the text can be parted: before a separator of a bracket that is open now. SIZE_MAX: it can not. */
size_t model_parting(const struct model_scan *scan, struct span text);

/* Writes what libxml2 gets there: the end of the declaration, and the beginning of one with the rest of the model. It is of an element that does not matter.
 * Returns the length. */
size_t part_model(const struct model_scan *scan, char text[PARTING_BYTES]);

/* Whether libxml2 reads a list of choices of which it has enough (choices.h). */
static inline bool models_have_choices(const struct model_scan *scan) {
    return scan->part == MODEL_ATTRIBUTES && choices_are_enough(&scan->choices);
}

/* Makes the models shallow in the text of a parameter entity or an external DTD, up to the first conditional section, and leaves out choices. False: out of
 * memory. */
bool make_declarations_shallow(char *text, size_t length, size_t most);

#endif
