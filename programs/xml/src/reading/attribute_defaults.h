/* Values that attributes, and declarations of namespaces, have by default. libxml2 keeps those of attributes. */
#ifndef ATTRIBUTE_DEFAULTS_H
#define ATTRIBUTE_DEFAULTS_H

#include "declarations.h"

/* The handler of libxml2 for the declaration of an attribute. A value is NULL if there is none by default. */
void declarations_attribute(struct declarations *declarations, const xmlChar *element, const xmlChar *name, const xmlChar *value, bool has_tokens);

#endif
