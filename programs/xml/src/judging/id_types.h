/* Which attributes have an ID-type, by section 5 of RELAX NG DTD Compatibility. Nothing here is proved.
 *
 * The ID-types are read from the simple form that the library prints: there all references are resolved, all names have their namespaces, and what is not
 * allowed is gone. Datatypes named ID, IDREF and IDREFS have one. The library does not serve them so far, so rncv-profile writes others, with a mark that
 * changes no meaning and that the simple form has too: in `xsd:NCName` and `xsd:token` a `minLength` with zeros in front, of 9 digits for ID, 8 for IDREF
 * and 7 for IDREFS; and as many line feeds as 1, 2 and 3 before a value. */
#ifndef ID_TYPES_H
#define ID_TYPES_H

#include "text_table.h"

enum id_type { ID_NONE, ID_ID, ID_IDREF, ID_IDREFS };

/* An element's and an attribute's name. */
struct id_names {
    struct span element_uri;
    struct span element;
    struct span attribute_uri;
    struct span attribute;
};

struct id_types {
    struct text_table pairs; /* of the names of an element and an attribute that has an ID-type there */
    uint8_t *types;          /* of each pair */
    uint32_t *next_pairs;    /* the next pair of the same element, plus 1 */
    uint32_t pair_capacity;
    uint32_t next_capacity;
    struct text_table elements;
    uint32_t *first_pairs; /* of each element, plus 1 */
    uint32_t element_capacity;
    struct text_table attributes; /* the local names of those attributes */
};

/* Reads the ID-types of a schema. `is_marked` says that rncv-profile wrote marks. If section 5 does not allow the schema, or it is too large, `unsound` gets
 * the reason, and nothing can be checked. False: out of memory. Close it in each case. */
bool id_types_open(struct id_types *types, struct span form, bool is_marked, struct bytes *unsound);
void id_types_close(struct id_types *types);

/* The ID-type of the attribute in the element. `key` is room for the names. */
enum id_type id_types_find(const struct id_types *types, const struct id_names *names, struct bytes *key);

#endif
