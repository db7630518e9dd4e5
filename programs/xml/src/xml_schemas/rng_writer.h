/* Writes a schema of the XML syntax in the compact syntax. */
#ifndef RNG_WRITER_H
#define RNG_WRITER_H

#include "origins.h"
#include "rng_tree.h"

/* The text, and the places of the elements for which its bytes were written. */
struct rng_text {
    struct bytes text;
    struct origins origins;
};

/* Says how a mention of a file is written. The href is resolved by the bases around it. False: it failed, and the fault may say why. */
struct rng_naming {
    bool (*name)(void *context, const struct bytes *href, struct place place, struct bytes *words, struct fault *fault);
    void *context;
};

/* Writes a tree that is a schema. No naming: a mention has its href as its words. False: the fault says why. Free the text in either case. */
bool rng_write(const struct rng_tree *tree, const struct rng_naming *naming, struct rng_text *text, struct fault *fault);

/* Reads a schema and writes it. `note` is called with what was noted about its XML. */
struct rng_request {
    const struct byte_source *source;
    const struct rng_naming *naming;
    void (*note)(void *context, struct place place, const char *what);
    void *context;
};
bool rng_convert(const struct rng_request *request, struct rng_text *text, struct fault *fault);

#endif
