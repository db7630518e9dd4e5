/* Finds long runs of bytes in markup: names, blanks, zeros of references, identifiers, values and literals of entities. */
#ifndef RUNS_H
#define RUNS_H

#include "bytes.h"

#include <stdint.h>

enum run_kind {
    RUN_NONE,
    RUN_NAME,   /* of an element, an attribute, an entity and the like, without a colon */
    RUN_BLANKS, /* between names and literals */
    RUN_ZEROS,  /* at the beginning of the number of a character */
    RUN_PUBLIC, /* of a public identifier */
    RUN_SYSTEM, /* of a system identifier */
    RUN_VALUE,  /* of the value of an attribute, or of one by default, but for references */
    RUN_ENTITY  /* of the literal of an entity, but for references */
};

enum { RUN_KINDS = RUN_ENTITY + 1 };

/* What is being read of markup. */
enum run_part {
    PART_OTHER,  /* nothing that has such runs */
    PART_NAME,   /* the target of an instruction, or a reference in content */
    PART_TAG,
    PART_SUBSET, /* between declarations */
    PART_OPENED, /* the first byte of a declaration or an instruction */
    PART_DECLARATION
};

/* What was read of a reference. */
enum run_reference { REFERENCE_NONE, REFERENCE_BEGUN, REFERENCE_NUMBER };

enum { WORD_BYTES = 8 };

/* How far markup was looked at. */
struct run_scan {
    uint64_t looked;       /* the offset up to which it was looked at */
    uint64_t run;          /* where the run that goes on there begins */
    enum run_kind kind;    /* of this run */
    enum run_part part;
    enum run_reference reference;
    uint64_t behind;       /* where the reference in content ends that was read; 0: none was */
    bool is_joined;        /* a colon is directly before */
    bool is_entity;        /* this is the declaration of one */
    bool is_list;          /* this is the declaration of attributes */
    char quote;            /* of the literal that is being read; 0: none is */
    enum run_kind literal; /* the kind of its runs */
    bool has_fragment;     /* it is a system identifier, and has a `#` that is in no run */
    uint64_t sure;         /* the offset from which on it has nothing at which libxml2 may find a fault */
    unsigned literals;     /* that were read */
    unsigned words;        /* the names that were begun */
    char word[WORD_BYTES]; /* the beginning of the last one */
    size_t word_length;
};

/* Forgets what was looked at, and goes on at the offset. What is known of the document stays. */
void runs_restart(struct run_scan *scan, uint64_t offset);

/* Begins to look at the markup that is at the start of the text, which has at least four bytes, at the offset. In a document type it may be the rest of a list
 * of attributes, from the name of one on, or of a content model, from a separator on. */
void runs_begin(struct run_scan *scan, uint64_t offset, struct span text, bool is_declared);

/* Begins to look at the offset in a declaration of attributes, outside of literals. */
void runs_begin_list(struct run_scan *scan, uint64_t offset);

/* Looks at the text, which begins at `looked`, up to where a run ends. Returns how many bytes it looked at. */
size_t runs_look(struct run_scan *scan, struct span text);

/* How many bytes at the start of the text go on with the run. The text ends with a whole character. */
size_t run_length(const struct run_scan *scan, struct span text);

#endif
