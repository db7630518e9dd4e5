/* Reads parameter entities that are in many others.
 *
 * libxml2 has an input for each entity that it reads, and at most some 1,024. From some inputs on, the text of an entity is put in front of what is left of
 * the text that is read. */
#ifndef NESTED_PARAMETERS_H
#define NESTED_PARAMETERS_H

#include "declarations.h"

/* Whether the text of the internal entity has to be put there, since too many are in one another already, and can be. One that is no sequence of whole
 * declarations cannot: libxml2 finds that out. */
bool is_nested_parameter(const struct declarations *declarations, const xmlEntity *entity);

/* Puts it there. libxml2 then reads an entity without text. If it is in itself, or too many are in one another, there is a fault. */
void nest_parameter(struct declarations *declarations, const xmlEntity *entity);

void nested_parameters_free(struct nested_parameters *nested);

#endif
