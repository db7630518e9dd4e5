/* Long names in the texts of entities. libxml2 gets these by their numbers too (long_names.h). */
#ifndef ENTITY_NAMES_H
#define ENTITY_NAMES_H

#include "long_names.h"

/* Whether the text may have a long name. */
bool has_long_run(struct span text);

/* Adds the text of an entity, for content or of declarations, with numbers in its long names. False: out of memory. */
bool add_with_numbers(struct long_names *names, struct span text, bool is_of_declarations, struct bytes *to);

#endif
