/* The text of external entities, where a user asks for it. Files are read, and nothing is fetched. */
#ifndef EXTERNAL_H
#define EXTERNAL_H

#include "fault.h"

#include <libxml/parser.h>

/* An external entity or DTD. */
struct external {
    const xmlChar *public;
    const xmlChar *uri; /* where the document says that it is. A catalog of XML may say otherwise */
};

/* Reads its text, as UTF-8 and without its text declaration. Adds the path to `path`, and to `encoding` the name of the encoding if iconv has read it. False:
 * `fault` says why, without a place. */
bool external_read(const struct external *entity, struct bytes *text, struct bytes *path, struct bytes *encoding, struct fault *fault);

#endif
