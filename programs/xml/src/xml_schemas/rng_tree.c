#include "rng_tree.h"

#include "rng_reading.h"

#include <stdlib.h>

enum { MOST_BYTES = 33554432 }; /* of the PYX */

static const char xml_uri[] = "http://www.w3.org/XML/1998/namespace";

static const char *const elements[] = {"anyName", "attribute", "choice", "data", "define", "div", "element", "empty", "except", "externalRef", "grammar",
                                       "group", "include", "interleave", "list", "mixed", "name", "notAllowed", "nsName", "oneOrMore", "optional", "param",
                                       "parentRef", "ref", "start", "text", "value", "zeroOrMore", NULL};
static const char *const attributes[] = {"name", "type", "combine", "href", "ns", "datatypeLibrary"};
const struct vocabulary rng_vocabulary = {"http://relaxng.org/ns/structure/1.0", "RELAX NG", elements, attributes};

const char *rng_kind_name(enum rng_kind kind) {
    return kind == RNG_UNKNOWN ? "" : elements[kind - 1];
}

const char *rng_attribute_name(enum rng_attribute attribute) {
    return attribute == RNG_AT_BASE ? "xml:base" : attributes[attribute];
}

bool rng_has(const struct rng_node *node, enum rng_attribute attribute) {
    return node->values[attribute].data != NULL;
}

struct span rng_trimmed(const struct rng_node *node, enum rng_attribute attribute) {
    return without_blanks(node->values[attribute]);
}

bool rng_grow(void **items, size_t count, size_t *capacity, size_t size) {
    if (count < *capacity) {
        return true;
    }
    size_t wanted = *capacity == 0 ? 64 : 2 * *capacity;
    void *longer = realloc(*items, wanted * size);
    if (longer != NULL) {
        *items = longer;
        *capacity = wanted;
    }
    return longer != NULL;
}

static bool out_of_memory(struct fault *fault) {
    fault_set(fault, FAULT_MEMORY, (struct place){0, 0}, "out of memory");
    return false;
}

static bool is_over(struct reading *reading, struct place place, const char *what) {
    fault_set(reading->fault, FAULT_OUTSIDE, place, "%s: outside the profile", what);
    return false;
}

/* Keeps the lines, and their places. */
static bool take_piece(void *context, const struct piece *piece) {
    struct reading *reading = context;
    struct rng_tree *tree = reading->tree;
    bytes_add(&tree->pyx, piece->bytes, piece->length);
    for (size_t at = 0; at < piece->count; at++) {
        void *list = tree->places;
        if (!rng_grow(&list, tree->place_count, &tree->place_capacity, sizeof *tree->places)) {
            return out_of_memory(reading->fault);
        }
        tree->places = list;
        tree->places[tree->place_count++] = piece->places[at];
    }
    if (tree->pyx.failed) {
        return out_of_memory(reading->fault);
    }
    return tree->pyx.length <= MOST_BYTES || is_over(reading, piece->places[0], "the schema has more than 33,554,432 bytes of PYX");
}

static void take_note(void *context, struct place place, const char *what) {
    struct rng_tree *tree = ((struct reading *)context)->tree;
    if (tree->note_place.line == 0) {
        tree->note_place = place;
        bytes_add_text(&tree->note, what);
    }
}

/* Replaces the escapes in a part of the PYX, where it is. */
static struct span unescaped(char *data, size_t length) {
    size_t to = 0;
    for (size_t at = 0; at < length; at++) {
        char byte = data[at];
        if (byte == '\\' && at + 1 < length) {
            byte = data[++at] == 'n' ? '\n' : data[at] == 't' ? '\t' : '\\';
        }
        data[to++] = byte;
    }
    return (struct span){data, to};
}

static enum rng_kind kind_of(const struct vocabulary *vocabulary, struct span name) {
    for (int at = 0; vocabulary->elements[at] != NULL; at++) {
        if (span_is(name, vocabulary->elements[at])) {
            return (enum rng_kind)(at + 1);
        }
    }
    return RNG_UNKNOWN;
}

/* Keeps an attribute. Those of other namespaces are foreign, but `xml:base`. */
static void keep_attribute(const struct vocabulary *vocabulary, struct rng_node *node, const struct attribute *attribute) {
    bool is_base = span_is(attribute->uri, xml_uri) && span_is(attribute->local, "base");
    if (attribute->uri.length > 0 && !is_base && !span_is(attribute->uri, vocabulary->uri)) {
        return;
    }
    for (int at = RNG_AT_NAME; at < RNG_AT_BASE && attribute->uri.length == 0; at++) {
        if (vocabulary->attributes[at] != NULL && span_is(attribute->local, vocabulary->attributes[at])) {
            node->values[at] = attribute->value;
            return;
        }
    }
    if (is_base) {
        node->values[RNG_AT_BASE] = attribute->value;
    } else {
        node->wrong = attribute->name;
    }
}

/* Makes a node of the tag, under its parent. */
static bool add_node(struct reading *reading, uint32_t parent, uint32_t scope) {
    struct rng_tree *tree = reading->tree;
    void *list = tree->nodes;
    if (!rng_grow(&list, tree->node_count, &tree->node_capacity, sizeof *tree->nodes)) {
        return out_of_memory(reading->fault);
    }
    tree->nodes = list;
    uint32_t index = (uint32_t)tree->node_count++;
    struct rng_node *node = &tree->nodes[index];
    struct rng_node *above = &tree->nodes[parent];
    *node = (struct rng_node){.place = reading->tag.place, .name = reading->tag.local, .scope = scope,
                              .kind = kind_of(tree->vocabulary, reading->tag.local),
                              .parent = parent, .text = {"", 0}, .ns = above->ns, .library = above->library};
    for (size_t at = 0; at < reading->tag.count; at++) {
        keep_attribute(tree->vocabulary, node, &reading->tag.attributes[at]);
    }
    node->ns = rng_has(node, RNG_AT_NS) ? node->values[RNG_AT_NS] : node->ns;
    node->library = rng_has(node, RNG_AT_LIBRARY) ? node->values[RNG_AT_LIBRARY] : node->library;
    if (above->last != 0) {
        tree->nodes[above->last].next = index;
    }
    above->first = above->first == 0 ? index : above->first;
    above->last = index;
    return true;
}

/* Opens the element of the tag. It is foreign if it is of another namespace, or in a foreign element. */
static bool open_element(struct reading *reading) {
    struct rng_tree *tree = reading->tree;
    const struct open_element *around = reading->depth == 0 ? NULL : &reading->open[reading->depth - 1];
    uint32_t scope = around == NULL ? 0 : around->scope;
    if (reading->depth == MOST_OPEN) {
        return is_over(reading, reading->tag.place, "more than 512 elements are open");
    }
    if (!tag_resolve(reading, &scope)) {
        return false;
    }
    const struct vocabulary *vocabulary = tree->vocabulary;
    bool is_foreign = !span_is(reading->tag.uri, vocabulary->uri);
    if (is_foreign && around == NULL) {
        fault_set(reading->fault, FAULT_MALFORMED, reading->tag.place, "the root is no element of %s (of the namespace %s)", vocabulary->title,
                  vocabulary->uri);
        return false;
    }
    bool is_inside = around == NULL || around->node != 0;
    reading->open[reading->depth++] = (struct open_element){is_foreign || !is_inside ? 0 : (uint32_t)tree->node_count, scope};
    if (is_foreign && is_inside) {
        tree->nodes[around->node].has_foreign = true;
    }
    return is_foreign || !is_inside || add_node(reading, around == NULL ? 0 : around->node, scope);
}

/* Takes a text of the innermost element. A text in several lines is joined where the first one is. */
static void take_text(struct reading *reading, struct span text, struct place place) {
    uint32_t index = reading->depth == 0 ? 0 : reading->open[reading->depth - 1].node;
    struct rng_node *node = &reading->tree->nodes[index];
    if (index == 0) {
        return;
    }
    if (node->text_place.line == 0 && !is_blank_text(text)) {
        node->text_place = place;
    }
    bool has_text = node->kind == RNG_VALUE || node->kind == RNG_PARAM || node->kind == RNG_NAME;
    if (!has_text || node->first != 0 || node->has_foreign) {
        return;
    }
    if (node->text.length == 0) {
        node->text = text;
    } else {
        size_t at = (size_t)(node->text.data - reading->tree->pyx.data) + node->text.length;
        memmove(reading->tree->pyx.data + at, text.data, text.length);
        node->text.length += text.length;
    }
}

/* Adds an attribute to the tag. */
static bool take_attribute(struct reading *reading, char *line, size_t length, struct place place) {
    struct tag *tag = &reading->tag;
    char *blank = memchr(line, ' ', length);
    size_t name = blank == NULL ? length : (size_t)(blank - line);
    size_t begin = blank == NULL ? length : name + 1;
    if (tag->count == MOST_ATTRIBUTES) {
        return is_over(reading, place, "a tag has more than 256 attributes and declarations");
    }
    tag->attributes[tag->count++] = (struct attribute){.name = {line, name}, .value = unescaped(line + begin, length - begin)};
    return true;
}

/* Takes a line of PYX, without its line feed. A tag ends where the next line is none of its attributes. */
static bool take_line(struct reading *reading, char *line, size_t length, struct place place, bool is_tag_end) {
    struct tag *tag = &reading->tag;
    switch (line[0]) {
    case '(':
        tag->name = (struct span){line + 1, length - 1};
        tag->count = 0;
        tag->place = place;
        return !is_tag_end || open_element(reading);
    case 'A':
        return take_attribute(reading, line + 1, length - 1, place) && (!is_tag_end || open_element(reading));
    case '-':
        take_text(reading, unescaped(line + 1, length - 1), place);
        return true;
    case ')':
        reading->depth--;
        return true;
    default:
        return true;
    }
}

static bool take_lines(struct reading *reading) {
    struct rng_tree *tree = reading->tree;
    char *end = tree->pyx.data + tree->pyx.length;
    size_t number = 0;
    for (char *line = tree->pyx.data; line < end; number++) {
        char *feed = memchr(line, '\n', (size_t)(end - line));
        char *next = feed == NULL ? end : feed + 1;
        size_t length = (size_t)((feed == NULL ? end : feed) - line);
        bool is_tag_end = next == end || *next != 'A';
        if (length > 0 && !take_line(reading, line, length, tree->places[number], is_tag_end)) {
            return false;
        }
        line = next;
    }
    return true;
}

bool rng_tree_open(struct rng_tree *tree, const struct vocabulary *vocabulary, const struct byte_source *source, struct fault *fault) {
    memset(tree, 0, sizeof *tree);
    tree->vocabulary = vocabulary;
    struct reading *reading = calloc(1, sizeof *reading);
    void *nodes = NULL;
    void *declarations = NULL;
    bool is_good = reading != NULL && rng_grow(&nodes, 0, &tree->node_capacity, sizeof *tree->nodes) &&
                   rng_grow(&declarations, 0, &tree->declaration_capacity, sizeof *tree->declarations);
    tree->nodes = nodes;
    tree->declarations = declarations;
    if (!is_good) {
        free(reading);
        return out_of_memory(fault);
    }
    tree->nodes[0] = (struct rng_node){.library = {"", 0}};
    tree->node_count = 1;
    tree->declaration_count = 1;
    reading->tree = tree;
    reading->fault = fault;
    convert(source, &(struct pyx_sink){take_piece, take_note, reading}, fault);
    is_good = fault->kind == FAULT_NONE && take_lines(reading);
    if (tree->note.failed) {
        is_good = out_of_memory(fault);
    }
    free(reading);
    return is_good;
}

void rng_tree_close(struct rng_tree *tree) {
    bytes_free(&tree->pyx);
    bytes_free(&tree->note);
    free(tree->places);
    free(tree->nodes);
    free(tree->declarations);
    memset(tree, 0, sizeof *tree);
}
