/* Hints about what is broken once references are followed: S16, and the restrictions S18 to S27. The simple form is not built: references are followed on a
 * stack of frames, and notAllowed and empty are left out on the way. */
#include "schema_hinting.h"

#include <stdlib.h>
#include <string.h>

enum { MOST_FRAMES = 4000, MOST_CLASSES = 300, MOST_WILDCARDS = 64, MOST_NAMES = 6 };

#define NO_NAMESPACE (UINT32_MAX - 2) /* one that the schema does not have */

/* What is around a frame. */
enum { IN_ATTRIBUTE = 1, IN_LIST = 2, IN_EXCEPT = 4, IN_START = 8, IN_REPETITION = 16, IN_REPEATED_GROUP = 32 };

/* Leaves that occurred in a part of a body, and the outermost reference by which each was met there, or itself. 0: none. */
struct marks {
    uint32_t data, data_seen;
    uint32_t complex, complex_seen;
    uint32_t text, text_seen;
};

struct frame {
    struct spot spot;
    uint32_t cursor;     /* the next child, or component */
    uint32_t definition; /* whose components the children are; NONE: the children are nodes */
    uint32_t entered;    /* when */
    uint8_t kind;        /* as what the children are joined */
    uint8_t around;
    struct marks marks;
};

/* A name, or a class with a star, that was met in the body. */
struct use {
    uint32_t node;    /* the element or the attribute */
    uint32_t class;
    uint32_t setting;
    uint32_t namespace;
    struct span local;
    uint32_t met;     /* when */
    uint32_t body;    /* in which */
};

struct walk {
    struct hinting *hinting;
    struct frame *frames;
    uint32_t count, capacity;
    struct spot *elements;      /* those that are reached; their bodies are looked at in this order */
    uint32_t element_count, element_capacity;
    struct use *uses;           /* the names of this body */
    uint32_t use_count, use_capacity;
    struct use wildcards[MOST_WILDCARDS];
    uint32_t wildcard_count;
    uint32_t owner;             /* the element whose body is looked at; 0: the start */
    uint32_t body;              /* its number */
    uint32_t time;
    bool is_simplified;
};

static struct tree *tree_of(struct walk *walk) {
    return &walk->hinting->grammars.tree;
}

static enum node_kind kind_of(struct walk *walk, uint32_t node) {
    return hint_node(walk->hinting, node)->kind;
}

static bool is_reference(struct walk *walk, uint32_t node) {
    enum node_kind kind = kind_of(walk, node);
    return kind == NODE_REF || kind == NODE_PARENT_REF || kind == NODE_EXTERNAL;
}

static bool is_group(uint8_t kind) {
    return kind == NODE_GROUP || kind == NODE_INTERLEAVE || kind == NODE_MIXED;
}

/* Adds in which element this is. */
static void add_owner(struct walk *walk) {
    if (walk->owner != 0) {
        bytes_add_text(&walk->hinting->text, " in ");
        add_title(walk->hinting, walk->owner);
    } else {
        bytes_add_text(&walk->hinting->text, " in the start");
    }
}

/* Adds by which reference a node was met, if it was by one. */
static void add_way(struct walk *walk, uint32_t seen, uint32_t node) {
    if (seen != node && is_reference(walk, seen)) {
        bytes_add_text(&walk->hinting->text, kind_of(walk, seen) == NODE_EXTERNAL ? ", by the file " : ", by the reference ");
        add_part(walk->hinting, hint_node(walk->hinting, seen)->text);
    }
}

/* The outermost reference above a frame by which the node was met, or the node itself. */
static uint32_t seen_above(struct walk *walk, uint32_t frame, uint32_t node) {
    for (uint32_t at = frame + 1; at < walk->count; at++) {
        if (is_reference(walk, walk->frames[at].spot.node)) {
            return walk->frames[at].spot.node;
        }
    }
    return node;
}

/* The outermost frame in whose inside this is. */
static uint32_t frame_of(struct walk *walk, uint8_t inside) {
    uint32_t at = walk->count - 1;
    while (at > 0 && (walk->frames[at - 1].around & inside) != 0) {
        at--;
    }
    return at;
}

/* Says that a node is where it is not allowed: in the frame that set `inside`. */
static void hint_inside(struct walk *walk, const struct frame *here, uint8_t inside) {
    struct hinting *hinting = walk->hinting;
    uint32_t frame = frame_of(walk, inside);
    uint32_t outer = walk->frames[frame].spot.node;
    uint32_t node = here->spot.node;
    uint32_t seen = seen_above(walk, frame, node);
    if (!hint_begins(hinting, seen)) {
        return;
    }
    if (here->kind == NODE_EMPTY) {
        bytes_add_text(&hinting->text, "empty");
    } else if (here->kind == NODE_INTERLEAVE && here->definition != NONE) {
        bytes_add_text(&hinting->text, "an interleave (&=)");
    } else {
        add_title(hinting, node);
    }
    if (inside == IN_START) {
        bytes_add_text(&hinting->text, " is in the start");
    } else if (inside == IN_REPETITION) {
        bytes_add_text(&hinting->text, kind_of(walk, outer) == NODE_STAR ? " is in a group that * repeats" : " is in a group that + repeats");
    } else {
        bytes_add_text(&hinting->text, inside == IN_EXCEPT ? " is in the except of " : " is inside ");
        add_title(hinting, outer);
    }
    add_way(walk, seen, is_reference(walk, node) ? 0 : node);
}

/* The frames whose children are joined as a group or as an interleave of two or more, once those that are empty are left out. */
static bool has_two(struct walk *walk, const struct frame *frame) {
    struct grammars *grammars = &walk->hinting->grammars;
    uint32_t count = 0;
    if (frame->kind == NODE_MIXED) {
        return shape_of(grammars, (struct spot){hint_node(walk->hinting, frame->spot.node)->child, frame->spot.scope, frame->spot.setting}, 0) == SHAPE_LIVE;
    }
    if (frame->definition != NONE) {
        struct definition definition = grammars->definitions[frame->definition];
        for (uint32_t at = definition.first; at != NONE && count < 2 && tree_step(tree_of(walk), 1); at = grammars->components[at].next) {
            count += shape_of(grammars, component_spot(grammars, &definition, at), 0) == SHAPE_LIVE;
        }
        return count > 1;
    }
    for (uint32_t at = hint_node(walk->hinting, frame->spot.node)->child; at != 0 && count < 2 && tree_step(tree_of(walk), 1);
         at = hint_node(walk->hinting, at)->next) {
        count += shape_of(grammars, (struct spot){at, frame->spot.scope, frame->spot.setting}, 0) == SHAPE_LIVE;
    }
    return count > 1;
}

/* Whether a node is forbidden where this clause looks, by its kind. */
static bool is_forbidden(int clause, enum node_kind kind, bool is_several) {
    bool is_markup = kind == NODE_ELEMENT || kind == NODE_ATTRIBUTE;
    bool is_interleave = kind == NODE_INTERLEAVE && is_several;
    switch (clause) {
    case 18:
        return is_markup;
    case 20:
        return is_markup || kind == NODE_TEXT || kind == NODE_LIST || kind == NODE_MIXED || is_interleave;
    case 21:
        return is_markup || kind == NODE_TEXT || kind == NODE_LIST || kind == NODE_MIXED || is_interleave || (kind == NODE_GROUP && is_several) ||
               kind == NODE_PLUS || kind == NODE_STAR || kind == NODE_OPTIONAL || kind == NODE_EMPTY;
    default:
        return kind == NODE_DATA || kind == NODE_VALUE || (kind != NODE_ELEMENT && is_forbidden(21, kind, is_several));
    }
}

/* Whether a class has a star. */
static bool has_star(struct walk *walk, uint32_t class, int depth) {
    enum node_kind kind = kind_of(walk, class);
    bool is_there = kind == CLASS_ANY || kind == CLASS_NAMES;
    for (uint32_t at = hint_node(walk->hinting, class)->child; at != 0 && !is_there && depth < MOST_CLASSES && tree_step(tree_of(walk), 1);
         at = hint_node(walk->hinting, at)->next) {
        is_there = has_star(walk, at, depth + 1);
    }
    return is_there;
}

/* The clauses that look only at what is around a node: S18 to S22 and S25. */
static void judge_around(struct walk *walk, const struct frame *frame) {
    static const uint8_t insides[] = {[18] = IN_ATTRIBUTE, [20] = IN_LIST, [21] = IN_EXCEPT, [22] = IN_START};
    uint32_t node = frame->spot.node;
    uint8_t around = walk->frames[walk->count - 1].around;
    int clause = walk->hinting->clause;
    if (clause == 19) {
        if (frame->kind == NODE_ATTRIBUTE && (around & IN_REPEATED_GROUP) != 0) {
            hint_inside(walk, frame, IN_REPETITION);
        }
    } else if (clause == 25) {
        bool is_bare = frame->kind == NODE_ATTRIBUTE && (around & IN_REPETITION) == 0 && has_star(walk, hint_node(walk->hinting, node)->class, 0);
        if (is_bare && hint_begins(walk->hinting, node)) {
            add_title(walk->hinting, node);
            bytes_add_text(&walk->hinting->text, " is in no repetition (+ or *)");
            add_owner(walk);
            add_way(walk, seen_above(walk, 0, node), node);
        }
    } else if (clause >= 18 && clause <= 22 && (around & insides[clause]) != 0) {
        bool is_several = (frame->kind == NODE_GROUP || frame->kind == NODE_INTERLEAVE) && has_two(walk, frame);
        if (is_forbidden(clause, frame->kind, is_several)) {
            hint_inside(walk, frame, insides[clause]);
        }
    }
}

/* The frame in which this and what was met at a time are apart: the innermost one that was there at that time. */
static uint32_t frame_at(struct walk *walk, uint32_t met) {
    uint32_t low = 0;
    uint32_t high = walk->count;
    while (high - low > 1) {
        uint32_t middle = low + (high - low) / 2;
        if (walk->frames[middle].entered <= met) {
            low = middle;
        } else {
            high = middle;
        }
    }
    return low;
}

/* Says that two elements or attributes have a name in common, if they are on two sides of a group (S24) or of an interleave (S26). */
static void judge_pair(struct walk *walk, const struct use *use, const struct use *other) {
    struct hinting *hinting = walk->hinting;
    uint32_t apart = frame_at(walk, other->met);
    uint8_t kind = walk->frames[apart].kind;
    bool is_wrong = hinting->clause == 24 ? is_group(kind) : kind == NODE_INTERLEAVE;
    uint32_t seen = seen_above(walk, apart, use->node);
    if (!is_wrong || other->met == use->met || !hint_begins(hinting, seen)) {
        return;
    }
    add_title(hinting, use->node);
    if (span_equal(hint_node(hinting, use->node)->text, hint_node(hinting, other->node)->text)) {
        bytes_add_text(&hinting->text, hinting->clause == 24 ? " is there twice" : " is on both sides of &");
    } else {
        bytes_add_text(&hinting->text, " and ");
        add_title(hinting, other->node);
        bytes_add_text(&hinting->text, hinting->clause == 24 ? " have a name in common" : " have a name in common, on both sides of &");
    }
    add_owner(walk);
    add_way(walk, seen, use->node);
    if (use->node != other->node) {
        add_other(hinting, other->node);
    }
}

/* Whether a class has a name. */
static bool class_has(struct walk *walk, const struct use *use, uint32_t class, const struct use *name, int depth) {
    const struct node *node = hint_node(walk->hinting, class);
    struct span local = node->text;
    bool is_attribute = kind_of(walk, use->node) == NODE_ATTRIBUTE;
    if (depth > MOST_CLASSES || !tree_step(tree_of(walk), 1)) {
        tree_of(walk)->failed = true;
        return false;
    }
    if (node->kind == CLASS_NAME) {
        return name_of(walk->hinting, use->setting, is_attribute, &local) == name->namespace && span_equal(local, name->local);
    }
    if (node->kind == CLASS_CHOICE) {
        bool is_there = false;
        for (uint32_t at = node->child; at != 0 && !is_there; at = hint_node(walk->hinting, at)->next) {
            is_there = class_has(walk, use, at, name, depth + 1);
        }
        return is_there;
    }
    bool is_inside = node->kind == CLASS_ANY || name_of(walk->hinting, use->setting, is_attribute, &local) == name->namespace;
    return is_inside && (node->child == 0 || !class_has(walk, use, node->child, name, depth + 1));
}

/* Whether a name that is written in a class, or one that is not written anywhere, is in both. */
static bool has_common(struct walk *walk, const struct use *one, const struct use *other, uint32_t class, int depth) {
    const struct node *node = hint_node(walk->hinting, class);
    struct use name = {.local = node->text};
    if (depth > MOST_CLASSES || !tree_step(tree_of(walk), 1)) {
        return false;
    }
    if (node->kind == CLASS_ANY) {
        name.namespace = NO_NAMESPACE;
        name.local = (struct span){"", 0};
    } else if (node->kind != CLASS_CHOICE) {
        name.namespace = name_of(walk->hinting, one->setting, kind_of(walk, one->node) == NODE_ATTRIBUTE, &name.local);
        name.local = node->kind == CLASS_NAMES ? (struct span){"", 0} : name.local;
    }
    bool is_common = node->kind != CLASS_CHOICE && class_has(walk, one, one->class, &name, 0) && class_has(walk, other, other->class, &name, 0);
    for (uint32_t at = node->child; at != 0 && !is_common; at = hint_node(walk->hinting, at)->next) {
        is_common = has_common(walk, one, other, at, depth + 1);
    }
    return is_common;
}

/* Compares a class with a star with all that was met in this body. */
static void meet_wildcard(struct walk *walk, const struct use *use) {
    for (uint32_t at = 0; at < walk->use_count && walk->hinting->node == 0; at++) {
        if (class_has(walk, use, use->class, &walk->uses[at], 0)) {
            judge_pair(walk, use, &walk->uses[at]);
        }
    }
    for (uint32_t at = 0; at < walk->wildcard_count && walk->hinting->node == 0; at++) {
        const struct use *other = &walk->wildcards[at];
        if (has_common(walk, use, other, use->class, 0) || has_common(walk, other, use, other->class, 0)) {
            judge_pair(walk, use, other);
        }
    }
    if (walk->wildcard_count < MOST_WILDCARDS) {
        walk->wildcards[walk->wildcard_count++] = *use;
    }
}

/* Compares a name with the last one that is equal, and with the classes with a star. Of all pairs of equal names, two that follow each other are the ones that
 * are furthest apart. */
static void meet_name(struct walk *walk, struct use *use) {
    struct tree *tree = tree_of(walk);
    struct key key = {KEY_NAME, use->namespace, 0, 0, use->local};
    uint32_t *last = tree_value(tree, &key);
    if (last == NULL || !array_grow(tree, (void **)&walk->uses, walk->use_count, &walk->use_capacity, sizeof *walk->uses)) {
        tree->failed = true;
        return;
    }
    if (*last != NONE && *last < walk->use_count && walk->uses[*last].body == walk->body && walk->uses[*last].namespace == use->namespace &&
        span_equal(walk->uses[*last].local, use->local)) {
        judge_pair(walk, use, &walk->uses[*last]);
    }
    *last = walk->use_count;
    walk->uses[walk->use_count++] = *use;
    for (uint32_t at = 0; at < walk->wildcard_count && walk->hinting->node == 0; at++) {
        const struct use *other = &walk->wildcards[at];
        if (other->node != use->node && class_has(walk, other, other->class, use, 0)) {
            judge_pair(walk, use, other);
        }
    }
}

/* Meets each name of a class, and each star. */
static void meet_class(struct walk *walk, struct use *use, uint32_t class, int depth) {
    const struct node *node = hint_node(walk->hinting, class);
    if (depth > MOST_CLASSES || walk->hinting->node != 0 || !tree_step(tree_of(walk), 1)) {
        return;
    }
    use->class = class;
    if (node->kind == CLASS_CHOICE) {
        for (uint32_t at = node->child; at != 0; at = hint_node(walk->hinting, at)->next) {
            meet_class(walk, use, at, depth + 1);
        }
    } else if (node->kind == CLASS_NAME) {
        use->local = node->text;
        use->namespace = name_of(walk->hinting, use->setting, kind_of(walk, use->node) == NODE_ATTRIBUTE, &use->local);
        meet_name(walk, use);
    } else {
        meet_wildcard(walk, use);
    }
}

/* Keeps an element that is reached, once. */
static void reach(struct walk *walk, struct spot spot) {
    struct key key = {KEY_ELEMENT, spot.node, spot.scope, spot.setting, {NULL, 0}};
    uint32_t *value = tree_value(tree_of(walk), &key);
    if (value != NULL && *value == NONE &&
        array_grow(tree_of(walk), (void **)&walk->elements, walk->element_count, &walk->element_capacity, sizeof *walk->elements)) {
        *value = walk->element_count;
        walk->elements[walk->element_count++] = spot;
    }
}

/* Says that data are beside something else in a group, or repeated (S23). */
static void hint_data(struct walk *walk, const struct marks *data, uint32_t beside) {
    struct hinting *hinting = walk->hinting;
    if ((walk->frames[walk->count - 1].around & IN_LIST) == 0 && hint_begins(hinting, data->data_seen)) {
        add_title(hinting, data->data);
        bytes_add_text(&hinting->text, beside == 0 ? " is repeated" : " is beside ");
        if (beside != 0) {
            bytes_add_text(&hinting->text, kind_of(walk, beside) == NODE_MIXED ? "text of " : "");
            add_title(hinting, beside);
        }
        add_owner(walk);
        add_way(walk, data->data_seen, data->data);
    }
}

/* Joins the marks of a part with those of the parts before it in the frame. */
static void join_marks(struct walk *walk, struct frame *frame, const struct marks *part) {
    struct marks *before = &frame->marks;
    struct hinting *hinting = walk->hinting;
    if (hinting->clause == 23 && is_group(frame->kind)) {
        if (part->data != 0 && (before->complex != 0 || before->data != 0)) {
            hint_data(walk, part, before->complex != 0 ? before->complex : before->data);
        } else if (part->complex != 0 && before->data != 0) {
            hint_data(walk, before, part->complex);
        }
    }
    bool is_interleave = frame->kind == NODE_INTERLEAVE || frame->kind == NODE_MIXED;
    if (hinting->clause == 27 && is_interleave && part->text != 0 && before->text != 0 && hint_begins(hinting, part->text_seen)) {
        bool is_mixed = frame->kind == NODE_MIXED;
        bytes_add_text(&hinting->text, is_mixed ? "text is in mixed, which has text itself," : "text is on both sides of &");
        add_owner(walk);
        add_way(walk, part->text_seen, part->text);
        if (!is_mixed && part->text != before->text) {
            add_other(hinting, before->text);
        }
    }
    if (before->data == 0) {
        before->data = part->data;
        before->data_seen = part->data_seen;
    }
    if (before->complex == 0) {
        before->complex = part->complex;
        before->complex_seen = part->complex_seen;
    }
    if (before->text == 0) {
        before->text = part->text;
        before->text_seen = part->text_seen;
    }
}

/* What a whole node is for the nodes around it. */
static struct marks marks_of(const struct frame *frame) {
    uint32_t node = frame->spot.node;
    switch (frame->kind) {
    case NODE_ATTRIBUTE:
        return (struct marks){0};
    case NODE_LIST:
    case NODE_DATA:
    case NODE_VALUE:
        return (struct marks){.data = node, .data_seen = node};
    case NODE_TEXT:
        return (struct marks){0, 0, node, node, node, node};
    case NODE_ELEMENT:
        return (struct marks){.complex = node, .complex_seen = node};
    default:
        return frame->marks;
    }
}

/* Ends the last frame, and gives its marks to the one around it. */
static void leave(struct walk *walk) {
    struct frame frame = walk->frames[--walk->count];
    struct marks marks = marks_of(&frame);
    uint32_t node = frame.spot.node;
    if (frame.definition != NONE) {
        walk->hinting->grammars.definitions[frame.definition].state = 2;
    }
    if (walk->count == 0) {
        return;
    }
    if (walk->hinting->clause == 23 && (frame.kind == NODE_PLUS || frame.kind == NODE_STAR) && marks.data != 0) {
        hint_data(walk, &marks, 0);
    }
    if (is_reference(walk, node)) {
        marks.data_seen = marks.data_seen == 0 ? 0 : node;
        marks.complex_seen = marks.complex_seen == 0 ? 0 : node;
        marks.text_seen = marks.text_seen == 0 ? 0 : node;
    }
    join_marks(walk, &walk->frames[walk->count - 1], &marks);
}

/* Says that a definition refers to itself, from the frame where it is met first to this reference (S16). */
static void hint_cycle(struct walk *walk, uint32_t definition, uint32_t node) {
    struct hinting *hinting = walk->hinting;
    uint32_t at = 0;
    uint32_t shown = 0;
    while (at < walk->count && walk->frames[at].definition != definition) {
        at++;
    }
    if (!hint_begins(hinting, node)) {
        return;
    }
    add_part(hinting, hint_node(hinting, node)->text);
    bytes_add_text(&hinting->text, " refers to itself outside of elements: ");
    for (; at < walk->count && shown < MOST_NAMES; at++) {
        if (walk->frames[at].definition != NONE) {
            bool is_grammar = hinting->grammars.definitions[walk->frames[at].definition].name.length == 0;
            add_part(hinting, is_grammar ? (struct span){"start", 5} : hinting->grammars.definitions[walk->frames[at].definition].name);
            bytes_add_text(&hinting->text, " -> ");
            shown++;
        }
    }
    bytes_add_text(&hinting->text, at < walk->count ? ".. -> " : "");
    add_part(hinting, hint_node(hinting, node)->text);
}

/* Fills in what the children of a node are, and as what they are joined. False: a definition that is looked at already (S16). */
static bool fill(struct walk *walk, struct frame *frame) {
    struct grammars *grammars = &walk->hinting->grammars;
    const struct node *node = hint_node(walk->hinting, frame->spot.node);
    frame->kind = node->kind;
    frame->definition = NONE;
    frame->cursor = node->kind == NODE_ELEMENT ? 0 : node->child;
    if (node->kind != NODE_GRAMMAR && !is_reference(walk, frame->spot.node)) {
        return true;
    }
    struct meaning_of meaning = meaning_of(grammars, frame->spot);
    frame->cursor = meaning.pattern.node;
    if (meaning.definition == NONE) {
        frame->spot.setting = meaning.pattern.node != 0 ? meaning.pattern.setting : frame->spot.setting;
        return true;
    }
    struct definition *definition = &grammars->definitions[meaning.definition];
    if (!walk->is_simplified && definition->state == 1) {
        hint_cycle(walk, meaning.definition, frame->spot.node);
    }
    if (!walk->is_simplified && definition->state != 0) {
        return false;
    }
    definition->state = 1;
    frame->definition = meaning.definition;
    frame->cursor = definition->first;
    frame->kind = definition->count < 2 ? NODE_REF : definition->is_interleave ? NODE_INTERLEAVE : NODE_CHOICE;
    return true;
}

/* What is around the children of a frame. */
static uint8_t around_of(struct walk *walk, const struct frame *frame, uint8_t around) {
    switch (frame->kind) {
    case NODE_ATTRIBUTE:
        return (uint8_t)((around & ~(IN_REPETITION | IN_REPEATED_GROUP)) | IN_ATTRIBUTE);
    case NODE_LIST:
        return around | IN_LIST;
    case NODE_DATA:
        return around | IN_EXCEPT;
    case NODE_PLUS:
    case NODE_STAR:
        return around | IN_REPETITION;
    case NODE_GROUP:
    case NODE_INTERLEAVE:
    case NODE_MIXED:
        return (around & IN_REPETITION) != 0 && walk->hinting->clause == 19 && has_two(walk, frame) ? around | IN_REPEATED_GROUP : around;
    default:
        return around;
    }
}

/* Enters a node: looks at it, and puts its frame on the stack. */
static void enter(struct walk *walk, struct spot spot) {
    struct hinting *hinting = walk->hinting;
    struct frame *parent = &walk->frames[walk->count - 1];
    struct frame frame = {.spot = spot, .entered = ++walk->time};
    enum shape shape = walk->is_simplified ? shape_of(&hinting->grammars, spot, 0) : SHAPE_LIVE;
    if (shape == SHAPE_DEAD || (shape == SHAPE_EMPTY && is_group(parent->kind)) || !fill(walk, &frame)) {
        return;
    }
    if (shape == SHAPE_EMPTY) {
        frame.kind = NODE_EMPTY;
        frame.cursor = frame.definition == NONE ? 0 : NONE;
    }
    if (walk->is_simplified) {
        judge_around(walk, &frame);
    }
    if (frame.kind == NODE_ELEMENT) {
        reach(walk, spot);
    }
    frame.around = around_of(walk, &frame, parent->around);
    if (frame.kind == NODE_MIXED) {
        frame.marks = (struct marks){0, 0, spot.node, spot.node, spot.node, spot.node};
    }
    if (walk->count > MOST_FRAMES || !array_grow(tree_of(walk), (void **)&walk->frames, walk->count, &walk->capacity, sizeof *walk->frames)) {
        tree_of(walk)->failed = true;
        return;
    }
    walk->frames[walk->count++] = frame;
    if ((hinting->clause == 24 && frame.kind == NODE_ATTRIBUTE) || (hinting->clause == 26 && frame.kind == NODE_ELEMENT)) {
        struct use use = {.node = spot.node, .setting = spot.setting, .met = frame.entered, .body = walk->body};
        meet_class(walk, &use, hint_node(hinting, spot.node)->class, 0);
    }
}

/* The next child of the last frame; node 0: there is none. */
static struct spot next_child(struct walk *walk) {
    struct grammars *grammars = &walk->hinting->grammars;
    struct frame *frame = &walk->frames[walk->count - 1];
    struct spot child = {0, frame->spot.scope, frame->spot.setting};
    if (frame->definition == NONE) {
        child.node = frame->cursor;
        frame->cursor = child.node == 0 ? 0 : hint_node(walk->hinting, child.node)->next;
    } else if (frame->cursor != NONE) {
        child = component_spot(grammars, &grammars->definitions[frame->definition], frame->cursor);
        frame->cursor = grammars->components[frame->cursor].next;
    }
    return child;
}

/* Looks at a body: from its frame on, until all frames are left. */
static void walk_body(struct walk *walk, const struct frame *root) {
    walk->body++;
    walk->use_count = 0;
    walk->wildcard_count = 0;
    if (!array_grow(tree_of(walk), (void **)&walk->frames, 0, &walk->capacity, sizeof *walk->frames)) {
        return;
    }
    walk->frames[0] = *root;
    walk->count = 1;
    while (walk->count > 0 && walk->hinting->node == 0 && tree_step(tree_of(walk), 1)) {
        struct spot child = next_child(walk);
        if (child.node == 0) {
            leave(walk);
        } else {
            enter(walk, child);
        }
    }
}

/* Looks at the start. If it has several components, they are joined too. */
static void walk_start(struct walk *walk) {
    struct grammars *grammars = &walk->hinting->grammars;
    uint32_t number = definition_of(grammars, 0, (struct span){"", 0});
    if (number == NONE || (walk->is_simplified && shape_of_definition(grammars, number, 0) == SHAPE_DEAD)) {
        return;
    }
    struct definition *definition = &grammars->definitions[number];
    uint32_t first = grammars->components[definition->first].node;
    struct frame root = {.spot = {first, 0, grammars->components[definition->first].setting}, .cursor = definition->first, .definition = number,
                         .kind = NODE_CHOICE, .around = IN_START};
    definition->state = 1;
    root.kind = definition->is_interleave && definition->count > 1 ? NODE_INTERLEAVE : NODE_CHOICE;
    if (walk->hinting->clause == 22 && root.kind == NODE_INTERLEAVE && has_two(walk, &root) && hint_begins(walk->hinting, first)) {
        bytes_add_text(&walk->hinting->text, "the starts are joined by &=, so that two elements would be at the root");
    }
    walk_body(walk, &root);
}

void judge_restrictions(struct hinting *hinting) {
    struct walk *walk = calloc(1, sizeof *walk);
    if (walk == NULL) {
        hinting->grammars.tree.failed = true;
        return;
    }
    walk->hinting = hinting;
    walk->is_simplified = hinting->clause != 16;
    walk_start(walk);
    for (uint32_t at = 0; at < walk->element_count && hinting->node == 0 && !hinting->grammars.tree.failed && hinting->clause != 22; at++) {
        struct spot spot = walk->elements[at];
        struct frame root = {.spot = spot, .cursor = hint_node(hinting, spot.node)->child, .definition = NONE, .kind = NODE_NONE};
        walk->owner = spot.node;
        walk_body(walk, &root);
    }
    free(walk->frames);
    free(walk->elements);
    free(walk->uses);
    free(walk);
}
