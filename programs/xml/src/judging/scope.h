/* The namespaces that are declared at a place of a document. */
#ifndef SCOPE_H
#define SCOPE_H

#include "events.h"

/* A declaration of a namespace: in the texts of the scope its prefix, which is empty for the default one, and behind it the URI. */
struct binding {
    size_t at;
    size_t prefix_length;
    size_t uri_length;
    size_t depth; /* of its element: 1 for the root */
};

struct scope {
    struct bytes texts;
    struct binding *bindings;
    uint32_t count, capacity;
    bool failed; /* memory ran out */
};

/* Takes a declaration of an element at this depth. */
void scope_declare(struct scope *scope, const struct event_declaration *declaration, size_t depth);

/* Drops those of elements that are deeper. */
void scope_keep(struct scope *scope, size_t depth);

/* The depth of the innermost element with declarations; 0: there is none. */
size_t scope_depth(const struct scope *scope);

/* The bytes that it has. */
size_t scope_held(const struct scope *scope);

/* Forgets all declarations. What could not grow can grow again. */
void scope_clear(struct scope *scope);
void scope_free(struct scope *scope);

/* Adds the name as it could be written there: as `p:local`, or as `{uri}local` if no declaration suits it. */
void add_scoped(struct bytes *to, const struct scope *scope, struct span uri, struct span local, bool is_attribute);

#endif
