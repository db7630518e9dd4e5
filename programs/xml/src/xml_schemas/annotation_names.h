/* The names in annotations of a schema in the compact syntax: their prefixes are declared, their namespaces are allowed, and no attribute is twice in one
 * annotation. (Compact Syntax, sections 3 and 4) */
#ifndef ANNOTATION_NAMES_H
#define ANNOTATION_NAMES_H

#include "schema_tokens.h"

struct annotation_names {
    struct bytes uris;       /* of the prefixes, one after the other */
    struct bytes prefixes;   /* that are declared; sorted at the first name of an annotation */
    struct bytes attributes; /* of the annotation that is read; those of an annotation come before what is in it */
    bool is_sorted;
};

#define NO_ANNOTATION_NAMES {NO_BYTES, NO_BYTES, NO_BYTES, false}

/* Notes a declaration of a prefix. What is added to `uris` until the next call is its URI. */
void annotation_prefix(struct annotation_names *names, struct span prefix);
/* The URI of the last prefix is the one of another schema, which includes this one. */
void annotation_inherits(struct annotation_names *names);

/* Why a name may not be there, in words; NULL: it may. The name has the form of one. A foreign one is in no other annotation element. */
const char *annotation_element_fault(struct annotation_names *names, const struct token *name, bool is_foreign);
/* .. and for an attribute, which is noted. */
const char *annotation_attribute_fault(struct annotation_names *names, const struct token *name, bool is_foreign);

/* Forgets the attributes, and says where one is for the second time: the place in the file of the first such one; false: each is there once. */
bool annotation_attribute_twice(struct annotation_names *names, size_t *at);

bool annotation_names_failed(const struct annotation_names *names);
void annotation_names_free(struct annotation_names *names);

#endif
