/* The datatypes whose texts are not judged as the standard says, since that takes the document around them. */
#ifndef SCHEMA_CONTEXT_H
#define SCHEMA_CONTEXT_H

#include "schema_files.h"

/* Says in `note` that the texts of such datatypes are judged by their spelling alone, if the compiled schema names some: the prefixes in texts of QName and
 * NOTATION are not looked up, nor what ENTITY and ENTITIES name. It stays empty if there are none. False: out of memory. */
bool schema_context_read(rncv_schema *schema, const struct schema_files *files, struct bytes *note);

#endif
