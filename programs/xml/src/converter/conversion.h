/* Converts XML to PYX, as a stream. The memory is bounded by one tag and one piece of text, not by the document. */
#ifndef CONVERSION_H
#define CONVERSION_H

#include "events.h"

enum { LINE_BYTES = 65536 };

/* Some whole lines of the PYX, and where each of them is in the XML. */
struct piece {
    const char *bytes;
    size_t length;
    const struct place *places; /* of each line. A text is at its first character that is no blank, or where it begins */
    size_t count;
    uint64_t first; /* the number of the first line, from 1 */
};

/* The receiver of the PYX. */
struct pyx_sink {
    bool (*piece)(void *context, const struct piece *piece); /* takes a piece; false: it wants no more */
    void (*note)(void *context, struct place place, const char *what); /* takes a note: what is left out of the document without harm to its form */
    void *context;
};

/* Converts a document. If there is no fault, the sink has received all of it. */
void convert(const struct byte_source *source, const struct pyx_sink *sink, struct fault *fault);

#endif
