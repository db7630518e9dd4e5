#include "schema_grammars.h"

#include <stdlib.h>
#include <string.h>

enum {
    MOST_INSIDE = 400, /* divs and includes in one another */
    MOST_SHAPES = 600  /* calls of shape_of in one another: 150 KiB of stack */
};

/* The includes around a component. What the braces of one have, the file inside it does not give. */
struct around {
    uint32_t include;
    const struct around *outer;
    int depth;
};

struct gathering {
    struct grammars *grammars;
    uint32_t scope;
};

static struct node *node_at(struct grammars *grammars, uint32_t node) {
    return &grammars->tree.nodes[node];
}

static uint32_t setting_of(struct grammars *grammars, uint32_t file, uint32_t inherited) {
    struct tree *tree = &grammars->tree;
    struct key key = {KEY_SETTING, file, inherited, 0, {NULL, 0}};
    uint32_t *value = tree_value(tree, &key);
    if (value == NULL || *value != NONE) {
        return value == NULL ? 0 : *value;
    }
    *value = grammars->setting_count;
    if (!array_grow(tree, (void **)&grammars->settings, grammars->setting_count, &grammars->setting_capacity, sizeof *grammars->settings)) {
        return 0;
    }
    grammars->settings[grammars->setting_count] = (struct setting){file, inherited};
    return grammars->setting_count++;
}

uint32_t namespace_of(struct grammars *grammars, uint32_t setting, struct span prefix) {
    struct setting here = grammars->settings[setting];
    struct key key = {KEY_PREFIX, here.file, 0, 0, prefix};
    uint32_t found = prefix.length > 0 ? tree_find(&grammars->tree, &key) : grammars->tree.files[here.file].default_namespace;
    if (found == NONE && span_is(prefix, "xml")) {
        return tree_uri(&grammars->tree, (struct span){"http://www.w3.org/XML/1998/namespace", 36});
    }
    return found == INHERITED ? here.inherited : found;
}

/* The setting of the file that a node mentions. */
static uint32_t mentioned(struct grammars *grammars, uint32_t node, uint32_t setting) {
    uint32_t file = tree_file_of(&grammars->tree, node_at(grammars, node)->text);
    uint32_t inherited = namespace_of(grammars, setting, node_at(grammars, node)->other);
    if (file == NONE || inherited == NONE) {
        grammars->tree.failed = true;
        return 0;
    }
    return setting_of(grammars, file, inherited);
}

uint32_t definition_of(struct grammars *grammars, uint32_t scope, struct span name) {
    struct key key = {KEY_DEFINITION, scope, 0, 0, name};
    return scope == NONE ? NONE : tree_find(&grammars->tree, &key);
}

/* The definition of a name, which is new if need be. NULL: no memory. */
static struct definition *define(struct grammars *grammars, uint32_t scope, struct span name) {
    struct tree *tree = &grammars->tree;
    struct key key = {KEY_DEFINITION, scope, 0, 0, name};
    uint32_t *value = tree_value(tree, &key);
    if (value == NULL) {
        return NULL;
    }
    if (*value != NONE) {
        return &grammars->definitions[*value];
    }
    uint32_t new = *value = grammars->definition_count;
    if (!array_grow(tree, (void **)&grammars->definitions, new, &grammars->definition_capacity, sizeof *grammars->definitions)) {
        return NULL;
    }
    grammars->definitions[new] = (struct definition){.name = name, .scope = scope, .first = NONE, .last = NONE, .next = NONE};
    struct scope *here = &grammars->scopes[scope];
    if (here->first == NONE) {
        here->first = new;
    } else {
        grammars->definitions[here->last].next = new;
    }
    here->last = new;
    return &grammars->definitions[grammars->definition_count++];
}

static void add_component(struct gathering *gathering, uint32_t node, uint32_t setting) {
    struct grammars *grammars = gathering->grammars;
    struct tree *tree = &grammars->tree;
    struct definition *definition = define(grammars, gathering->scope, node_at(grammars, node)->text);
    if (definition == NULL ||
        !array_grow(tree, (void **)&grammars->components, grammars->component_count, &grammars->component_capacity, sizeof *grammars->components)) {
        tree->failed = true;
        return;
    }
    grammars->components[grammars->component_count] = (struct component){node, setting, NONE};
    if (definition->first == NONE) {
        definition->first = grammars->component_count;
    } else {
        grammars->components[definition->last].next = grammars->component_count;
    }
    definition->last = grammars->component_count++;
    definition->count++;
    definition->is_interleave |= node_at(grammars, node)->method == '&';
}

/* Puts the names that the braces of an include have into the table. */
static void put_overrides(struct grammars *grammars, uint32_t include, uint32_t first, int depth) {
    struct tree *tree = &grammars->tree;
    for (uint32_t node = first; node != 0 && depth < MOST_INSIDE && tree_step(tree, 1); node = node_at(grammars, node)->next) {
        const struct node *here = node_at(grammars, node);
        struct key key = {KEY_OVERRIDE, include, 0, 0, here->text};
        if (here->kind == NODE_DIV) {
            put_overrides(grammars, include, here->child, depth + 1);
        } else if (here->kind != NODE_INCLUDE) {
            uint32_t *value = tree_value(tree, &key);
            if (value != NULL) {
                *value = node;
            }
        }
    }
}

static void note_overrides(struct grammars *grammars, uint32_t include) {
    struct key key = {KEY_OVERRIDES, include, 0, 0, {NULL, 0}};
    uint32_t *value = tree_value(&grammars->tree, &key);
    if (value != NULL && *value == NONE) {
        *value = 1;
        put_overrides(grammars, include, node_at(grammars, include)->child, 0);
    }
}

static bool is_overridden(struct grammars *grammars, const struct around *around, struct span name) {
    for (; around != NULL; around = around->outer) {
        struct key key = {KEY_OVERRIDE, around->include, 0, 0, name};
        if (around->include != 0 && tree_find(&grammars->tree, &key) != NONE) {
            return true;
        }
    }
    return false;
}

/* Adds the components of a list to a grammar, with those of its divs and of the files that it includes. */
static void gather(struct gathering *gathering, uint32_t first, uint32_t setting, const struct around *around) {
    struct grammars *grammars = gathering->grammars;
    int depth = around == NULL ? 0 : around->depth;
    grammars->tree.failed |= depth > MOST_INSIDE;
    for (uint32_t node = first; node != 0 && tree_step(&grammars->tree, 1); node = node_at(grammars, node)->next) {
        struct node here = *node_at(grammars, node);
        struct around inside = {here.kind == NODE_INCLUDE ? node : 0, around, depth + 1};
        if (here.kind == NODE_START || here.kind == NODE_DEFINE) {
            if (!is_overridden(grammars, around, here.text)) {
                add_component(gathering, node, setting);
            }
        } else if (here.kind == NODE_DIV) {
            gather(gathering, here.child, setting, &inside);
        } else {
            uint32_t file = mentioned(grammars, node, setting);
            note_overrides(grammars, node);
            if (!grammars->tree.failed && grammars->tree.files[grammars->settings[file].file].is_grammar) {
                gather(gathering, grammars->tree.files[grammars->settings[file].file].components, file, &inside);
            }
            inside.include = 0;
            gather(gathering, here.child, setting, &inside);
        }
    }
}

/* The grammar of a node, or of a file (node 0), inside a grammar. It is gathered if it is new. */
static uint32_t scope_of(struct grammars *grammars, uint32_t around, uint32_t node, uint32_t setting) {
    struct tree *tree = &grammars->tree;
    struct key key = {KEY_SCOPE, around, node, setting, {NULL, 0}};
    uint32_t *value = tree_value(tree, &key);
    if (value == NULL || *value != NONE) {
        return value == NULL ? NONE : *value;
    }
    uint32_t new = *value = grammars->scope_count;
    if (!array_grow(tree, (void **)&grammars->scopes, new, &grammars->scope_capacity, sizeof *grammars->scopes)) {
        return NONE;
    }
    grammars->scope_count++;
    grammars->scopes[new] = (struct scope){around, node, setting, NONE, NONE};
    struct gathering gathering = {grammars, new};
    uint32_t first = node != 0 ? node_at(grammars, node)->child : tree->files[grammars->settings[setting].file].components;
    gather(&gathering, first, setting, NULL);
    return tree->failed ? NONE : new;
}

bool grammars_open(struct grammars *grammars) {
    uint32_t main = setting_of(grammars, 0, 0);
    return scope_of(grammars, NONE, 0, main) != NONE && !grammars->tree.failed;
}

void grammars_close(struct grammars *grammars) {
    free(grammars->settings);
    free(grammars->components);
    free(grammars->definitions);
    free(grammars->scopes);
}

struct meaning_of meaning_of(struct grammars *grammars, struct spot spot) {
    struct node *node = node_at(grammars, spot.node);
    struct meaning_of none = {NONE, {0, 0, 0}};
    uint32_t scope = spot.scope;
    if (node->kind == NODE_REF || node->kind == NODE_PARENT_REF) {
        uint32_t where = node->kind == NODE_REF ? scope : grammars->scopes[scope].around;
        return (struct meaning_of){definition_of(grammars, where, node->text), none.pattern};
    }
    if (node->kind == NODE_GRAMMAR) {
        scope = scope_of(grammars, spot.scope, spot.node, spot.setting);
        return (struct meaning_of){definition_of(grammars, scope, (struct span){"", 0}), none.pattern};
    }
    if (node->kind != NODE_EXTERNAL) {
        return (struct meaning_of){NONE, spot};
    }
    uint32_t setting = mentioned(grammars, spot.node, spot.setting);
    if (grammars->tree.failed) {
        return none;
    }
    const struct tree_file *file = &grammars->tree.files[grammars->settings[setting].file];
    if (!file->is_grammar) {
        return (struct meaning_of){NONE, {node_at(grammars, file->components)->child, spot.scope, setting}};
    }
    scope = scope_of(grammars, spot.scope, 0, setting);
    return (struct meaning_of){definition_of(grammars, scope, (struct span){"", 0}), none.pattern};
}

struct spot component_spot(const struct grammars *grammars, const struct definition *definition, uint32_t component) {
    const struct component *here = &grammars->components[component];
    return (struct spot){grammars->tree.nodes[here->node].child, definition->scope, here->setting};
}

/* The shape of parts that are joined. */
static enum shape both(enum node_kind kind, enum shape one, enum shape other) {
    bool is_choice = kind == NODE_CHOICE;
    if (one == SHAPE_UNKNOWN) {
        return other;
    }
    if (one == SHAPE_DEAD || other == SHAPE_DEAD) {
        return is_choice ? (one == SHAPE_DEAD ? other : one) : SHAPE_DEAD;
    }
    return one == SHAPE_EMPTY ? other : one;
}

enum shape shape_of_definition(struct grammars *grammars, uint32_t number, int depth) {
    if (number == NONE) {
        return SHAPE_LIVE;
    }
    struct definition definition = grammars->definitions[number];
    if (definition.shape != SHAPE_UNKNOWN) {
        return definition.shape == SHAPE_IN_PROGRESS ? SHAPE_LIVE : (enum shape)definition.shape;
    }
    enum shape shape = SHAPE_UNKNOWN;
    grammars->definitions[number].shape = SHAPE_IN_PROGRESS;
    for (uint32_t at = definition.first; at != NONE && tree_step(&grammars->tree, 1); at = grammars->components[at].next) {
        enum shape part = shape_of(grammars, component_spot(grammars, &definition, at), depth);
        shape = both(definition.is_interleave ? NODE_INTERLEAVE : NODE_CHOICE, shape, part);
    }
    grammars->definitions[number].shape = (uint8_t)shape;
    return shape;
}

static enum shape shape_of_parts(struct grammars *grammars, struct spot spot, int depth) {
    enum node_kind kind = node_at(grammars, spot.node)->kind;
    enum shape shape = SHAPE_UNKNOWN;
    for (uint32_t part = node_at(grammars, spot.node)->child; part != 0 && tree_step(&grammars->tree, 1); part = node_at(grammars, part)->next) {
        shape = both(kind, shape, shape_of(grammars, (struct spot){part, spot.scope, spot.setting}, depth));
    }
    return shape == SHAPE_UNKNOWN ? SHAPE_LIVE : shape;
}

static enum shape new_shape(struct grammars *grammars, struct spot spot, int depth) {
    enum node_kind kind = node_at(grammars, spot.node)->kind;
    struct meaning_of meaning;
    switch (kind) {
    case NODE_NOT_ALLOWED:
        return SHAPE_DEAD;
    case NODE_EMPTY:
        return SHAPE_EMPTY;
    case NODE_GROUP:
    case NODE_INTERLEAVE:
    case NODE_CHOICE:
    case NODE_PLUS:
        return shape_of_parts(grammars, spot, depth);
    case NODE_ATTRIBUTE:
    case NODE_LIST:
    case NODE_MIXED:
        return shape_of_parts(grammars, spot, depth) == SHAPE_DEAD ? SHAPE_DEAD : SHAPE_LIVE;
    case NODE_STAR:
    case NODE_OPTIONAL:
        return shape_of_parts(grammars, spot, depth) == SHAPE_LIVE ? SHAPE_LIVE : SHAPE_EMPTY;
    case NODE_REF:
    case NODE_PARENT_REF:
    case NODE_GRAMMAR:
    case NODE_EXTERNAL:
        meaning = meaning_of(grammars, spot);
        return meaning.definition == NONE && meaning.pattern.node != 0 ? shape_of(grammars, meaning.pattern, depth)
                                                                       : shape_of_definition(grammars, meaning.definition, depth);
    default:
        return SHAPE_LIVE;
    }
}

enum shape shape_of(struct grammars *grammars, struct spot spot, int depth) {
    struct node *node = node_at(grammars, spot.node);
    if (node->shape_of == spot.scope + 1) {
        return node->shape;
    }
    if (depth > MOST_SHAPES || !tree_step(&grammars->tree, 1)) {
        grammars->tree.failed = true;
        return SHAPE_LIVE;
    }
    enum shape shape = new_shape(grammars, spot, depth + 1);
    node = node_at(grammars, spot.node);
    node->shape_of = spot.scope + 1;
    node->shape = (uint8_t)shape;
    return shape;
}
