#include "rng_writer.h"

#include "rng_grammar.h"
#include "rng_writing.h"

/* Whether the pattern is nothing but a grammar once patterns of one child are that child (4.12), and is none yet. An include of it is wrong (4.7). */
static bool is_hidden_grammar(const struct rng_tree *tree) {
    const struct rng_node *node = &tree->nodes[1];
    bool is_hidden = node->kind != RNG_GRAMMAR;
    while ((node->kind == RNG_GROUP || node->kind == RNG_CHOICE || node->kind == RNG_INTERLEAVE) && node->first == node->last) {
        node = &tree->nodes[node->first];
    }
    return is_hidden && node->kind == RNG_GRAMMAR;
}

/* Writes what the root is. A grammar that is hidden would be one in the compact syntax. A choice with notAllowed is none, and means the same. */
static void put_root(struct rng_writer *writer) {
    const struct rng_node *root = rng_at(writer, 1);
    put_mark(writer, root);
    if (root->kind == RNG_GRAMMAR) {
        put_components(writer, root->first);
    } else if (is_hidden_grammar(writer->tree)) {
        put(writer, "notAllowed | ");
        put_pattern(writer, 1, LEVEL_PARTICLE);
    } else {
        put_pattern(writer, 1, LEVEL_PATTERN);
    }
    put(writer, "\n");
}

/* Puts the declarations before the text, and moves the marks. */
static void join(struct rng_writer *writer, struct bytes *body) {
    struct rng_text *out = writer->out;
    size_t blank = body->length > 0 && body->data[0] == '\n'; /* before the first component */
    writer->text = &out->text;
    put_declarations(writer);
    size_t head = out->text.length;
    bytes_add(&out->text, body->data + blank, body->length - blank);
    out->text.failed |= body->failed;
    for (size_t at = 0; at < out->origins.count; at++) {
        size_t *begin = &out->origins.list[at].at;
        *begin = at == 0 ? 0 : *begin + head - (*begin > 0 ? blank : 0);
    }
}

bool rng_write(const struct rng_tree *tree, const struct rng_naming *naming, struct rng_text *text, struct fault *fault) {
    struct bytes body = NO_BYTES;
    *text = (struct rng_text){NO_BYTES, {NULL, 0, 0}};
    struct rng_writer writer = {.tree = tree, .naming = naming, .fault = fault, .text = &body, .out = text, .namespaces = {.stem = "ns"},
                                .libraries = {.stem = "lib"}, .default_ns = tree->nodes[1].values[RNG_AT_NS]};
    put_root(&writer);
    join(&writer, &body);
    if (text->text.failed || writer.namespaces.failed || writer.libraries.failed) {
        fault_set(fault, FAULT_MEMORY, (struct place){0, 0}, "out of memory");
    }
    if (writer.namespaces.is_full || writer.libraries.is_full) {
        fault_set(fault, FAULT_OUTSIDE, tree->nodes[1].place, "more than 4,096 namespaces or libraries: outside the profile");
    }
    rng_prefixes_free(&writer.namespaces);
    rng_prefixes_free(&writer.libraries);
    bytes_free(&body);
    return fault->kind == FAULT_NONE;
}

bool rng_convert(const struct rng_request *request, struct rng_text *text, struct fault *fault) {
    struct rng_tree tree;
    *text = (struct rng_text){NO_BYTES, {NULL, 0, 0}};
    bool is_good = rng_tree_open(&tree, &rng_vocabulary, request->source, fault);
    if (is_good && tree.note_place.line != 0 && request->note != NULL) {
        request->note(request->context, tree.note_place, bytes_text(&tree.note));
    }
    is_good = is_good && rng_is_schema(&tree, fault) && rng_write(&tree, request->naming, text, fault);
    rng_tree_close(&tree);
    return is_good;
}
