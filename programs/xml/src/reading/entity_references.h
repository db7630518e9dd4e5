/* What libxml2 is to read for a reference to an entity. */
#ifndef ENTITY_REFERENCES_H
#define ENTITY_REFERENCES_H

#include "declarations.h"

/* The entity to read for a reference; NULL: there is none, or it is not read, and then there is a fault. */
xmlEntityPtr declarations_general(struct declarations *declarations, const xmlChar *name);
xmlEntityPtr declarations_parameter(struct declarations *declarations, const xmlChar *name);

/* Adds what the reference at the start of the text gives in a value of the document itself. Returns its length; 0: there is none, or libxml2 is to read it. */
size_t declarations_expand(struct declarations *declarations, struct span text, struct bytes *to);

#endif
