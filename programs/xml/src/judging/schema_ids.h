/* The ID-types of a compiled schema. */
#ifndef SCHEMA_IDS_H
#define SCHEMA_IDS_H

#include "id_types.h"
#include "schema_files.h"

/* Reads the ID-types, if the files of the schema name some, and no document is in progress. `types` becomes NULL if there are none, or if they cannot be
 * checked, and then `unsound` gets the reason. False: out of memory. Free it in each case. */
bool schema_ids_read(rncv_schema *schema, const struct schema_files *files, struct id_types **types, struct bytes *unsound);
void schema_ids_free(struct id_types *types);

/* Gets the simple form of a schema, which the caller frees. Returns the status of the library. */
int32_t schema_form(rncv_schema *schema, uint8_t **form, size_t *length);

#endif
