/* URIs in schemas in the XML syntax (RELAX NG 4.3, 4.5). */
#ifndef RNG_URI_H
#define RNG_URI_H

#include "rng_tree.h"

/* The scheme of a URI, without its colon; empty: it is relative. */
struct span uri_scheme(struct span uri);

/* Whether a URI has no fragment, and a percent sign only before two hexadecimal digits. */
bool uri_is_sound(struct span uri);

/* Adds the URI with the characters escaped that URIs do not have (XLink 5.4). */
void add_escaped_uri(struct bytes *to, struct span uri);

/* Adds a URI, resolved by the `xml:base` of an element and those around it (RFC 3986, 5.2). Without any it is as it is written. */
void add_by_bases(struct bytes *to, const struct rng_tree *tree, uint32_t index, struct span uri);

#endif
