/* The prefixes of a text in the compact syntax that is written: one or more for each namespace, one for each library of datatypes. */
#ifndef RNG_PREFIXES_H
#define RNG_PREFIXES_H

#include "rng_tree.h"

enum { MOST_PREFIXES = 4096 };

/* A prefix and what it is declared as. No data: the namespace that the file inherits. */
struct rng_prefix {
    struct bytes name;
    struct span uri;
};

struct rng_prefixes {
    struct rng_prefix *list;
    size_t count;
    size_t capacity;
    const char *stem; /* of the names that are made: the stem and a number */
    size_t number;    /* of the last one */
    bool failed;      /* memory ran out */
    bool is_full;     /* there are more than MOST_PREFIXES */
};

/* The name of the prefix for a URI. If there is none yet, it is the wanted name (empty: none is wanted) if that is free, else one that is made. */
struct span rng_prefix_for(struct rng_prefixes *prefixes, struct span uri, struct span wanted);

/* Takes a prefix for a URI by this very name. False: the name is taken for another URI. */
bool rng_prefix_take(struct rng_prefixes *prefixes, struct span uri, struct span name);

void rng_prefixes_free(struct rng_prefixes *prefixes);

#endif
