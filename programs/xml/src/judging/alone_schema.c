#include "alone_schema.h"

#include <string.h>

/* The simple form has elements `e0`, `e1`, .. and patterns `p0`, `p1`, .., which mention each other. In the new schema the mentions stay as they are, but `e0`
 * is an element of the same name without attributes and content. `o0` is the element as it was, and the root is an element `k0` around it, so that the root
 * says which element of the schema it is. */

bool alone_schemas_open(struct alone_schemas *schemas, uint32_t datatypes) {
    memset(schemas, 0, sizeof *schemas);
    schemas->datatypes = datatypes;
    return pthread_mutex_init(&schemas->lock, NULL) == 0;
}

void alone_schemas_close(struct alone_schemas *schemas) {
    rncv_schema_free(&schemas->whole.schema);
    rncv_schema_free(&schemas->content.schema);
    pthread_mutex_destroy(&schemas->lock);
}

/* Adds the name of a node of the tree of choices: node 1 is its root, node N has the nodes 2N and 2N + 1, and the last ones are the roots. So no choice is
 * deep. */
static void add_node(struct bytes *text, uint32_t node, uint32_t element_count) {
    bytes_format(text, node < element_count ? "s%u" : "r%u", (unsigned)(node < element_count ? node : node - element_count));
}

static void write_start(struct bytes *text, uint32_t element_count) {
    bytes_add_text(text, "start = ");
    add_node(text, 1, element_count);
    for (uint32_t node = 1; node < element_count; node++) {
        bytes_format(text, "\ns%u = ", (unsigned)node);
        add_node(text, 2 * node, element_count);
        bytes_add_text(text, " | ");
        add_node(text, 2 * node + 1, element_count);
    }
    bytes_add_byte(text, '\n');
}

static void write_element(struct bytes *text, const struct declared *declared, uint32_t number) {
    const struct form_line *line = &declared->form.elements[number];
    bytes_format(text, "e%u = element ", (unsigned)number);
    bytes_add(text, declared->text + line->class_from, line->class_to - line->class_from);
    bytes_format(text, "{ empty }\no%u = element ", (unsigned)number);
    bytes_add(text, declared->text + line->class_from, line->class_to - line->class_from);
    bytes_add_text(text, "{ ");
    bytes_add(text, declared->text + line->from, line->to - line->from);
    bytes_format(text, "}\nr%u = element k%u { o%u }\n", (unsigned)number, (unsigned)number, (unsigned)number);
}

static void write_pattern(struct bytes *text, const struct declared *declared, uint32_t number, bool has_attributes) {
    const struct form_line *line = &declared->form.patterns[number];
    bytes_format(text, "p%u = ", (unsigned)number);
    if (line->kind != LINE_ATTRIBUTE) {
        bytes_add(text, declared->text + line->from, line->to - line->from);
    } else if (has_attributes) {
        bytes_add_text(text, "attribute ");
        bytes_add(text, declared->text + line->class_from, line->class_to - line->class_from);
        bytes_add_text(text, "{ ");
        bytes_add(text, declared->text + line->from, line->to - line->from);
        bytes_add_byte(text, '}');
    } else {
        bytes_add_text(text, "empty");
    }
    bytes_add_byte(text, '\n');
}

/* Compiles one of the schemas. Without attributes, each attribute is `empty`. */
static bool compile(const struct alone_schemas *schemas, const struct declared *declared, bool has_attributes, rncv_schema *schema) {
    const struct form *form = &declared->form;
    struct bytes text = NO_BYTES;
    rncv_fault fault;
    bytes_add(&text, declared->text, form->start);
    write_start(&text, form->element_count);
    for (uint32_t number = 0; number < form->element_count; number++) {
        write_element(&text, declared, number);
    }
    for (uint32_t number = 0; number < form->pattern_count; number++) {
        write_pattern(&text, declared, number, has_attributes);
    }
    rncv_file file = {(const uint8_t *)"", 0, (const uint8_t *)text.data, text.length};
    bool is_good = !text.failed && rncv_compile_with(&file, 1, schemas->datatypes, schema, &fault) == RNCV_DONE;
    bytes_free(&text);
    return is_good;
}

bool alone_schemas_share(struct alone_schemas *schemas, const struct declared *declared, bool has_attributes, rncv_schema *schema) {
    struct alone_schema *wanted = has_attributes ? &schemas->whole : &schemas->content;
    pthread_mutex_lock(&schemas->lock);
    if (!wanted->is_tried) {
        wanted->is_tried = true;
        wanted->is_there = declared->form.element_count > 0 && compile(schemas, declared, has_attributes, &wanted->schema);
    }
    bool is_shared = wanted->is_there && rncv_schema_share(&wanted->schema, schema) == RNCV_DONE;
    pthread_mutex_unlock(&schemas->lock);
    return is_shared;
}
