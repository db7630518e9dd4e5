/* Where a datatype of a schema breaks S12, as the library reports it of each file by itself. */
#ifndef SCHEMA_DATATYPES_H
#define SCHEMA_DATATYPES_H

#include "schema_files.h"

struct datatype_place {
    size_t file;        /* its index */
    struct place place; /* in the file as it is written */
};

/* Looks for the first datatype that breaks S12 with the datatypes of this set, in the files that are reached from the main one, in the order of their
 * mentions. A datatype in a component that an `include` overrides is found too, though it breaks nothing. False: there is none, or memory ran out. */
bool schema_datatypes_find(const struct schema_files *files, uint32_t datatypes, struct datatype_place *found);

#endif
