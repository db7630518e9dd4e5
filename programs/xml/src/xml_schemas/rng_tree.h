/* A schema in the XML syntax of RELAX NG, as a tree: foreign elements and attributes are left out (RELAX NG 4.1). A catalog is read in the same way. */
#ifndef RNG_TREE_H
#define RNG_TREE_H

#include "conversion.h"

enum rng_kind {
    RNG_UNKNOWN, /* an element that RELAX NG does not have */
    RNG_ANY_NAME,
    RNG_ATTRIBUTE,
    RNG_CHOICE,
    RNG_DATA,
    RNG_DEFINE,
    RNG_DIV,
    RNG_ELEMENT,
    RNG_EMPTY,
    RNG_EXCEPT,
    RNG_EXTERNAL_REF,
    RNG_GRAMMAR,
    RNG_GROUP,
    RNG_INCLUDE,
    RNG_INTERLEAVE,
    RNG_LIST,
    RNG_MIXED,
    RNG_NAME,
    RNG_NOT_ALLOWED,
    RNG_NS_NAME,
    RNG_ONE_OR_MORE,
    RNG_OPTIONAL,
    RNG_PARAM,
    RNG_PARENT_REF,
    RNG_REF,
    RNG_START,
    RNG_TEXT,
    RNG_VALUE,
    RNG_ZERO_OR_MORE
};

/* The attributes of RELAX NG, and `xml:base`. */
enum rng_attribute { RNG_AT_NAME, RNG_AT_TYPE, RNG_AT_COMBINE, RNG_AT_HREF, RNG_AT_NS, RNG_AT_LIBRARY, RNG_AT_BASE, RNG_ATTRIBUTES };

/* The elements and attributes of a kind of XML file. The first element is the kind 1, and the attribute after those that are listed is `xml:base`. */
struct vocabulary {
    const char *uri;   /* the namespace of the elements */
    const char *title; /* the name of that */
    const char *const *elements;   /* NULL ends the list */
    const char *const *attributes; /* RNG_AT_BASE of them; NULL is in the place of one that is not there */
};
extern const struct vocabulary rng_vocabulary;

/* An element. Nodes are named by their indexes. The index 0 is no node, and 1 is the root. */
struct rng_node {
    struct place place;                 /* of its tag */
    struct place text_place;            /* of its first character that is no blank; line 0: there is none */
    struct span name;                   /* without its prefix */
    struct span values[RNG_ATTRIBUTES]; /* no data: there is no such attribute */
    struct span wrong;                  /* an attribute that RELAX NG does not have; no data: there is none */
    struct span text;                   /* of a value, param or name: the whole text */
    struct span ns;                     /* by the nearest element that has it, this one included; no data: none in the file has it */
    struct span library;                /* the same; empty if there is none */
    uint32_t scope;                     /* its innermost declaration of a namespace; 0: none */
    uint32_t parent;
    uint32_t first;
    uint32_t last;
    uint32_t next;
    enum rng_kind kind;
    bool has_foreign; /* it had a foreign child */
};

/* A declaration of a namespace. */
struct rng_declaration {
    struct span prefix; /* empty: the default one */
    struct span uri;
    uint32_t around; /* the next one outwards; 0: none */
    uint32_t depth;  /* how many are in scope with this one */
};

struct rng_tree {
    struct bytes pyx; /* the spans are parts of it */
    struct place *places;
    struct rng_node *nodes;
    struct rng_declaration *declarations;
    size_t place_count, place_capacity;
    size_t node_count, node_capacity;
    size_t declaration_count, declaration_capacity;
    const struct vocabulary *vocabulary;
    struct bytes note; /* what the conversion noted about the document, if anything */
    struct place note_place;
};

/* Reads the XML. False: the fault says why. Close the tree in either case. */
bool rng_tree_open(struct rng_tree *tree, const struct vocabulary *vocabulary, const struct byte_source *source, struct fault *fault);
void rng_tree_close(struct rng_tree *tree);

/* The namespace of a prefix in a scope; no data: the prefix is not declared. The empty prefix is not declared outside default declarations. */
struct span rng_namespace(const struct rng_tree *tree, uint32_t scope, struct span prefix);

/* The name of a kind's element, and of an attribute. */
const char *rng_kind_name(enum rng_kind kind);
const char *rng_attribute_name(enum rng_attribute attribute);

/* Whether the attribute is there. */
bool rng_has(const struct rng_node *node, enum rng_attribute attribute);
/* Its value without blanks at the ends (4.2). */
struct span rng_trimmed(const struct rng_node *node, enum rng_attribute attribute);

/* Makes room for one more item in an array. False: out of memory. */
bool rng_grow(void **items, size_t count, size_t *capacity, size_t size);

#endif
