/* Whether the text of an entity may be put in the place of references to it in content. */
#ifndef ENTITY_BALANCE_H
#define ENTITY_BALANCE_H

#include "bytes.h"

/* Whether the text matches `content` (XML 1.0, 43), whatever the entities to which it refers are. False also if there is no memory. */
bool entity_is_balanced(struct span text);

#endif
