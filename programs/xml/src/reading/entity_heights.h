/* How many entities are in one another. */
#ifndef ENTITY_HEIGHTS_H
#define ENTITY_HEIGHTS_H

#include "declarations.h"

/* How many entities are in one another in the text of the entity: none, if it refers to none. One that is in itself counts once. Each text is read once a
 * document, without recursion. Without memory there is a fault. */
size_t entity_height(struct declarations *declarations, const xmlEntity *entity);

#endif
