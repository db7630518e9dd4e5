/* Why the reading of a document stops, and where. */
#ifndef FAULT_H
#define FAULT_H

#include "bytes.h"

#include <stdint.h>

/* A line and a column of the XML, both from 1. A column counts characters. Line 0: no place. */
struct place {
    uint64_t line;
    uint64_t column;
};

enum fault_kind {
    FAULT_NONE,
    FAULT_MALFORMED, /* the XML is not well formed */
    FAULT_OUTSIDE,   /* the XML has something that the profile does not have */
    FAULT_DEVICE,    /* a file or a device failed */
    FAULT_MEMORY,    /* out of memory */
    FAULT_STOPPED    /* the receiver wants no more */
};

struct fault {
    enum fault_kind kind;
    struct place place;
    struct bytes what;
    int clause; /* of a document that is malformed: 6, 11 or 12 if it breaks that clause; else 0 */
};

#define NO_FAULT {FAULT_NONE, {0, 0}, NO_BYTES, 0}

/* Shortens the words of a line that nobody reads to their ends: a name may have millions of characters. */
void shorten_words(struct bytes *line);

/* Sets the first fault. A later one changes nothing. Without memory for its words, the fault is that memory ran out. */
void fault_set(struct fault *fault, enum fault_kind kind, struct place place, const char *format, ...) __attribute__((format(printf, 4, 5)));
/* Sets that the document breaks a clause, in the words of XML. */
void fault_set_clause(struct fault *fault, int clause, struct place place, const char *what);
void fault_free(struct fault *fault);

#endif
