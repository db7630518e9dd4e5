/* How the lines of PYX become a tree, as its parts share it. */
#ifndef RNG_READING_H
#define RNG_READING_H

#include "rng_tree.h"
#include "xml_names.h"

enum { MOST_OPEN = 512, MOST_ATTRIBUTES = 256, MOST_IN_SCOPE = 1024 };

/* An element whose end has not come. */
struct open_element {
    uint32_t node;  /* 0: it is foreign */
    uint32_t scope;
};

struct attribute {
    struct span name; /* as it is written */
    struct span uri;  /* of its namespace; empty: none */
    struct span local;
    struct span value;
};

/* A start tag. */
struct tag {
    struct span name;
    struct span uri;
    struct span local;
    struct attribute attributes[MOST_ATTRIBUTES];
    size_t count;
    struct place place;
};

struct reading {
    struct rng_tree *tree;
    struct fault *fault;
    struct open_element open[MOST_OPEN];
    size_t depth;
    struct tag tag;
};

/* Finds the namespaces of a tag's names, and takes its declarations out of its attributes (Namespaces in XML 1.0). False: the fault says why. */
bool tag_resolve(struct reading *reading, uint32_t *scope);

#endif
