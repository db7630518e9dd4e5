/* Whether a tree is a schema by the grammar of RELAX NG 3, and by what 4.2 to 4.10 ask of attributes. What 4.16 to 4.19 and 7 ask is judged by the library, of
 * the text that is written. */
#ifndef RNG_GRAMMAR_H
#define RNG_GRAMMAR_H

#include "rng_tree.h"

/* False: the fault says what is wrong first, and where. */
bool rng_is_schema(const struct rng_tree *tree, struct fault *fault);

/* Whether the first child of an element or attribute is its name class. */
bool rng_has_class(const struct rng_node *node);

/* Whether the element is a value whose text is a name with the prefixes of the schema. */
bool rng_is_qname_value(const struct rng_node *node);

#endif
