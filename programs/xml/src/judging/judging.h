/* Judges one document by a schema. */
#ifndef JUDGING_H
#define JUDGING_H

#include "alone_schema.h"
#include "id_check.h"
#include "library_calls.h"
#include "program.h"
#include "scope.h"
#include "shown.h"

#include <rncv.h>
#include <stdatomic.h>

/* What a document is. */
enum verdict {
    VERDICT_VALID,
    VERDICT_INVALID,
    VERDICT_MALFORMED, /* not well-formed XML, or it breaks Namespaces in XML */
    VERDICT_OUTSIDE,   /* something in the XML is outside the profile */
    VERDICT_FAILED     /* a file, a device or memory failed */
};

/* What is at the place that is reported. */
enum stands {
    STANDS_NOT_KNOWN,
    STANDS_TAG,
    STANDS_ATTRIBUTE,
    STANDS_TEXT,
    STANDS_END
};

/* What is wrong at the place. */
enum reason {
    REASON_NOT_KNOWN,
    REASON_ELEMENT,         /* the element is not allowed there */
    REASON_ATTRIBUTE,       /* an attribute is not allowed */
    REASON_ATTRIBUTE_VALUE, /* the value of an attribute is wrong */
    REASON_MISSING,         /* attributes are missing */
    REASON_TEXT,            /* text is not allowed there */
    REASON_TEXT_VALUE,      /* the text is not one of those that are allowed */
    REASON_INCOMPLETE       /* the element ends too early */
};

/* What is left out of a document. */
struct note {
    struct place place;
    struct bytes what;
};

struct answer {
    enum verdict verdict;
    struct place place; /* line 0: none */
    enum stands stands;
    struct bytes name;    /* the name of the element or the attribute, or the first characters of the text */
    int clause;           /* 6, 11 or 12 if the document breaks that clause by its names; else 0 */
    enum reason reason;
    struct bytes expected;  /* what could have been there instead, each as it is shown, with a zero behind it */
    size_t expected_count;
    struct bytes attribute; /* the attribute that is wrong; those that are missing, with a blank between two */
    struct bytes datatype;  /* the name of the one that the value or the text should have had */
    struct bytes token;     /* the one that is wrong in a list, if that is known */
    struct bytes message; /* what is said about the document, without the place; empty if it is valid */
    struct note *notes;
    size_t note_count;
    bool notes_failed; /* memory ran out for a note */
    struct answer *hints; /* further faults of a document that is invalid, in the order of their places */
    size_t hint_count;
    struct answer *earlier; /* where the document was invalid before it was malformed or outside, if the judge is asked for that; else NULL */
};

/* No verdict yet. It is not VERDICT_VALID, so nothing is valid by accident. */
#define NO_ANSWER \
    {VERDICT_FAILED, {0, 0}, STANDS_NOT_KNOWN, NO_BYTES, 0, REASON_NOT_KNOWN, NO_BYTES, 0, NO_BYTES, NO_BYTES, NO_BYTES, NO_BYTES, \
     NULL, 0, false, NULL, 0, NULL}

struct jobs;
struct second;

/* What all judges share. */
struct shared {
    rncv_schema schema;
    const struct id_types *ids; /* the attributes with an ID-type; NULL: IDs are not checked */
    uint32_t datatypes; /* the set that the schema was compiled with; if it is another one, words about a place may be others */
    struct streams streams;
    size_t depth;  /* the most elements that may be open in a document; 0: as many as usual */
    size_t memory; /* the most bytes that may be held of a document; 0: as many as usual */
    size_t attributes; /* the most attributes and declarations of a tag; 0: as many as usual */
    atomic_ullong bytes_read;
    const char *page;  /* where the page about the clauses is */
    bool is_strict;    /* a document with a note is outside the profile */
    bool wants_earlier; /* an answer that is malformed or outside also says where the document was invalid before */
    bool loads_dtd;    /* external DTDs and entities are read, from files */
    struct alone_schemas *alone; /* what judges an element alone, for hints; NULL: none are wanted */
    size_t most_faults; /* with the hints, if they are wanted */
    struct jobs *jobs; /* the jobs that the threads work on; NULL for one thread */
    void (*tick)(void *context); /* is called now and then while a document is read */
    void *context;
};

enum { MOST_NAMED = 256 }; /* of open elements whose names are kept */

/* The name of an open element, as it is written. */
struct open_name {
    struct span prefix;
    struct span local;
};

/* A judge: one for each thread. */
struct judge {
    struct shared *shared;
    rncv_schema schema;
    rncv_schema asked; /* another handle on it, for questions while a document is in progress */
    struct declared declared; /* the attributes of the schema */
    struct declared *form; /* the simple form that its schema was made of, if another judge has it; else NULL */
    struct scope scope; /* the namespaces that are declared at the last start; once the document is invalid, there */
    struct call_room room;
    struct bytes text; /* the first characters of texts directly before the last starts and ends, if they came in pieces */
    struct id_check ids;
    struct second *second; /* what hints need, once a document was invalid; NULL: nothing yet */
    uint64_t found_number; /* of the start or end at which the last document was invalid by the schema; 0: it was not, or that is not known */
    struct open_name open[MOST_NAMED]; /* the elements that are open, the root first; those behind them have ended */
};

/* False: out of memory. */
bool judge_open(struct judge *judge, struct shared *shared);
void judge_close(struct judge *judge);

/* Judges the document of this name. */
void judge_document(struct judge *judge, const char *name, struct answer *answer);
/* Judges the document that the source gives. */
void judge_by(struct judge *judge, const struct byte_source *source, struct answer *answer);
/* Adds hints to the answer for the document that was judged last, which the source gives once more. Those that it had are freed. */
void judge_again(struct judge *judge, const struct byte_source *source, struct answer *answer);
void answer_free(struct answer *answer);

/* The word for what is wrong; empty: it is not known. */
const char *reason_word(enum reason reason);

/* The exit status for a verdict. */
int status_of(enum verdict verdict);

#endif
