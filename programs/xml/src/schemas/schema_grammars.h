/* The grammars of a schema, for hints: their components with what includes bring and override, and what their references find. */
#ifndef SCHEMA_GRAMMARS_H
#define SCHEMA_GRAMMARS_H

#include "schema_tree.h"

/* A file and the namespace that it inherits. */
struct setting {
    uint32_t file;
    uint32_t inherited;
};

/* A node, the grammar in which its references are looked up, and the setting of its file. */
struct spot {
    uint32_t node;
    uint32_t scope;
    uint32_t setting;
};

struct component {
    uint32_t node;
    uint32_t setting;
    uint32_t next; /* of the same definition; NONE: none */
};

/* All components of a name, or all starts (no name), of a grammar. */
struct definition {
    struct span name;
    uint32_t scope;
    uint32_t first;
    uint32_t last;
    uint32_t count;
    uint32_t next;       /* of the same grammar; NONE: none */
    bool is_interleave;
    uint8_t shape;
    uint8_t state;       /* for a search of cycles */
};

struct scope {
    uint32_t around;     /* the grammar around it; NONE: none */
    uint32_t node;       /* the node of a nested grammar; 0: a file */
    uint32_t setting;
    uint32_t first;      /* its first definition */
    uint32_t last;
};

/* What is left of a pattern once notAllowed and empty are simplified (4.20, 4.21). */
enum shape { SHAPE_UNKNOWN, SHAPE_IN_PROGRESS, SHAPE_DEAD, SHAPE_EMPTY, SHAPE_LIVE };

struct grammars {
    struct tree tree;
    struct setting *settings;
    struct component *components;
    struct definition *definitions;
    struct scope *scopes;
    uint32_t setting_count, setting_capacity;
    uint32_t component_count, component_capacity;
    uint32_t definition_count, definition_capacity;
    uint32_t scope_count, scope_capacity;
};

/* Gathers the main grammar, once the tree is read. The others are gathered when they are met. */
bool grammars_open(struct grammars *grammars);
void grammars_close(struct grammars *grammars);

/* The namespace of a prefix; of no prefix the default one. */
uint32_t namespace_of(struct grammars *grammars, uint32_t setting, struct span prefix);
uint32_t definition_of(struct grammars *grammars, uint32_t scope, struct span name);

/* What a reference, a nested grammar or an external stands for: a definition, or else a pattern. A pattern that is none of these is itself. */
struct meaning_of {
    uint32_t definition; /* NONE: none */
    struct spot pattern; /* node 0: none */
};
struct meaning_of meaning_of(struct grammars *grammars, struct spot spot);

/* The body of a component. */
struct spot component_spot(const struct grammars *grammars, const struct definition *definition, uint32_t component);

enum shape shape_of(struct grammars *grammars, struct spot spot, int depth);
/* The same of all components of a definition, joined. */
enum shape shape_of_definition(struct grammars *grammars, uint32_t number, int depth);

#endif
