/* The datatypes of XML Schema by their names, with the parameters that each takes, as hints about S12 need them: the library judges, and does not say what is
 * wrong. Which texts are values of a datatype or of a parameter, the library is asked (schema_asked.h). */
#ifndef SCHEMA_TYPES_H
#define SCHEMA_TYPES_H

#include "bytes.h"

#include <stdbool.h>

/* Datatypes with the same parameters. All take `pattern`. */
enum type_kind {
    TYPE_BARE,    /* no others */
    TYPE_CONTEXT, /* no others, and no values: QName and NOTATION, whose values depend on the prefixes around them */
    TYPE_LENGTH,  /* lengths: of texts, lists or octets */
    TYPE_ORDERED, /* bounds */
    TYPE_INTEGER, /* bounds and digits, and none of these behind the point */
    TYPE_DECIMAL  /* bounds and digits */
};

/* A datatype of the larger set (RNCV_DATATYPES_XML_SCHEMA). */
struct type {
    const char *name;
    enum type_kind kind;
};

/* NULL: there is none of this name. */
const struct type *type_named(struct span name);

/* Whether the smaller set (RNCV_DATATYPES_PROFILE) has the datatype too. */
bool type_is_of_profile(const struct type *type);

/* Whether the datatype has the parameter in the larger set. */
bool type_takes(const struct type *type, struct span parameter);

/* Whether the parameter is a bound: minInclusive, maxInclusive, minExclusive or maxExclusive. */
bool is_bound(struct span parameter);

#endif
