/* Names, literals and declarations of a schema that is written. */
#include "rng_writing.h"

#include "rng_grammar.h"
#include "rng_uri.h"

static const char xml_uri[] = "http://www.w3.org/XML/1998/namespace";
static const char xsd_uri[] = "http://www.w3.org/2001/XMLSchema-datatypes";

void put(struct rng_writer *writer, const char *text) {
    bytes_add_text(writer->text, text);
}

void put_span(struct rng_writer *writer, struct span text) {
    bytes_add(writer->text, text.data, text.length);
}

void put_line(struct rng_writer *writer) {
    put(writer, "\n");
    for (int at = 0; at < writer->depth; at++) {
        put(writer, "  ");
    }
}

void put_identifier(struct rng_writer *writer, struct span name) {
    put(writer, "\\");
    put_span(writer, name);
}

/* Writes a segment between quotes. What would end it, or is no plain character, is escaped. */
static void put_segment(struct rng_writer *writer, struct span text, char quote) {
    bytes_add_byte(writer->text, quote);
    for (size_t at = 0; at < text.length; at++) {
        char byte = text.data[at];
        if (byte == '\\' || byte == '\t' || byte == '\n' || byte == '\r') {
            bytes_format(writer->text, "\\x{%X}", (unsigned)byte);
        } else {
            bytes_add_byte(writer->text, byte);
        }
    }
    bytes_add_byte(writer->text, quote);
}

/* Runs of double quotes are between single ones. */
void put_literal(struct rng_writer *writer, struct span text) {
    put(writer, text.length == 0 ? "\"\"" : "");
    for (size_t at = 0; at < text.length;) {
        bool is_quotes = text.data[at] == '"';
        size_t end = at;
        while (end < text.length && (text.data[end] == '"') == is_quotes) {
            end++;
        }
        put(writer, at == 0 ? "" : " ~ ");
        put_segment(writer, (struct span){text.data + at, end - at}, is_quotes ? '\'' : '"');
        at = end;
    }
}

/* The prefix that the schema itself declares for a namespace where the element is; empty: none. */
static struct span declared_prefix(const struct rng_writer *writer, const struct rng_node *node, struct span uri) {
    const struct rng_tree *tree = writer->tree;
    for (uint32_t at = node->scope; at != 0; at = tree->declarations[at].around) {
        if (tree->declarations[at].prefix.length > 0 && span_equal(tree->declarations[at].uri, uri)) {
            return tree->declarations[at].prefix;
        }
    }
    return (struct span){"", 0};
}

/* The prefix for a namespace; no data of the namespace: the one that the file inherits. */
static struct span prefix_of(struct rng_writer *writer, const struct rng_node *node, struct span uri) {
    static const char inherited[] = "inherited";
    static const char none[] = "none";
    if (uri.data == NULL) {
        return rng_prefix_for(&writer->namespaces, uri, (struct span){inherited, sizeof inherited - 1});
    }
    if (span_is(uri, xml_uri)) {
        return (struct span){"xml", 3};
    }
    return rng_prefix_for(&writer->namespaces, uri, uri.length == 0 ? (struct span){none, sizeof none - 1} : declared_prefix(writer, node, uri));
}

static bool is_default(const struct rng_writer *writer, struct span uri) {
    return (uri.data == NULL) == (writer->default_ns.data == NULL) && span_equal(uri, writer->default_ns);
}

/* Writes a name. Without a prefix it has the default namespace as an element, and none as an attribute. */
static void put_name(struct rng_writer *writer, const struct rng_node *node, struct span name, struct span uri, bool is_attribute) {
    const char *colon = name.length == 0 ? NULL : memchr(name.data, ':', name.length);
    if (colon != NULL) {
        struct span prefix = {name.data, (size_t)(colon - name.data)};
        uri = rng_namespace(writer->tree, node->scope, prefix);
        name = (struct span){colon + 1, name.length - prefix.length - 1};
    }
    bool is_plain = is_attribute ? uri.data != NULL && uri.length == 0 : is_default(writer, uri);
    if (is_plain) {
        put_identifier(writer, name);
    } else {
        put_span(writer, prefix_of(writer, node, uri));
        put(writer, ":");
        put_span(writer, name);
    }
}

static void put_class(struct rng_writer *writer, uint32_t index, bool is_attribute, bool is_basic);

/* Writes a choice of name classes. */
static void put_classes(struct rng_writer *writer, uint32_t first, bool is_attribute, bool is_basic) {
    bool is_single = rng_at(writer, first)->next == 0;
    bool is_in_parentheses = is_basic && !is_single;
    put(writer, is_in_parentheses ? "(" : "");
    for (uint32_t at = first; at != 0; at = rng_at(writer, at)->next) {
        put(writer, at == first ? "" : " | ");
        put_class(writer, at, is_attribute, !is_single || is_basic);
    }
    put(writer, is_in_parentheses ? ")" : "");
}

/* Writes a name class. A basic one is no choice, and has no except. */
static void put_class(struct rng_writer *writer, uint32_t index, bool is_attribute, bool is_basic) {
    const struct rng_node *node = rng_at(writer, index);
    put_mark(writer, node);
    if (node->kind == RNG_NAME) {
        put_name(writer, node, without_blanks(node->text), node->ns, is_attribute);
        return;
    }
    if (node->kind == RNG_CHOICE) {
        put_classes(writer, node->first, is_attribute, is_basic);
        return;
    }
    bool has_except = node->first != 0;
    put(writer, has_except && is_basic ? "(" : "");
    if (node->kind == RNG_NS_NAME) {
        put_span(writer, prefix_of(writer, node, node->ns));
        put(writer, ":");
    }
    put(writer, has_except ? "* - " : "*");
    if (has_except) {
        put_classes(writer, rng_at(writer, node->first)->first, is_attribute, true);
    }
    put(writer, has_except && is_basic ? ")" : "");
}

void put_name_class(struct rng_writer *writer, const struct rng_node *node) {
    bool is_attribute = node->kind == RNG_ATTRIBUTE;
    if (rng_has(node, RNG_AT_NAME)) {
        /* an attribute named in its tag has no namespace but its own `ns` (4.8) */
        bool is_bare = is_attribute && !rng_has(node, RNG_AT_NS);
        put_name(writer, node, rng_trimmed(node, RNG_AT_NAME), is_bare ? (struct span){"", 0} : node->ns, is_attribute);
    } else {
        put_class(writer, node->first, is_attribute, false);
    }
    put_mark(writer, node);
}

void put_type(struct rng_writer *writer, const struct rng_node *node) {
    struct span type = rng_trimmed(node, RNG_AT_TYPE);
    struct span wanted = {"", 0};
    if (node->library.length == 0 && (span_is(type, "string") || span_is(type, "token"))) {
        put_span(writer, type);
        return;
    }
    put_span(writer, span_is(node->library, xsd_uri) ? (struct span){"xsd", 3} : rng_prefix_for(&writer->libraries, node->library, wanted));
    put(writer, ":");
    put_span(writer, type);
}

/* Writes a value that is a name with a prefix or in the default namespace. The text's declarations have to say what the schema's say. */
static void put_qname(struct rng_writer *writer, const struct rng_node *node) {
    struct span name = without_blanks(node->text);
    const char *colon = name.length == 0 ? NULL : memchr(name.data, ':', name.length);
    struct span prefix = {name.data, colon == NULL ? 0 : (size_t)(colon - name.data)};
    struct span uri = colon == NULL ? node->ns : rng_namespace(writer->tree, node->scope, prefix);
    bool is_kept = colon == NULL ? is_default(writer, uri) : span_is(prefix, "xml") || rng_prefix_take(&writer->namespaces, uri, prefix);
    if (is_kept) {
        put_literal(writer, node->text);
        return;
    }
    struct bytes literal = NO_BYTES;
    struct span made = prefix_of(writer, node, uri);
    bytes_add(&literal, made.data, made.length);
    bytes_add_byte(&literal, ':');
    bytes_add(&literal, name.data + prefix.length + (colon != NULL), name.length - prefix.length - (colon != NULL));
    writer->text->failed |= literal.failed;
    put_literal(writer, (struct span){literal.data, literal.length});
    bytes_free(&literal);
}

void put_value(struct rng_writer *writer, const struct rng_node *node) {
    if (!rng_has(node, RNG_AT_TYPE)) {
        put_literal(writer, node->text); /* a token (4.4) */
        return;
    }
    put_type(writer, node);
    put(writer, " ");
    if (rng_is_qname_value(node)) {
        put_qname(writer, node);
    } else {
        put_literal(writer, node->text);
    }
}

void put_inherit(struct rng_writer *writer, const struct rng_node *node) {
    if (!is_default(writer, node->ns)) {
        put(writer, " inherit = ");
        put_span(writer, prefix_of(writer, node, node->ns));
    }
}

/* Writes the declaration of a prefix. */
static void put_declaration(struct rng_writer *writer, const char *word, const struct rng_prefix *prefix) {
    put(writer, word);
    put_span(writer, (struct span){prefix->name.data, prefix->name.length});
    put(writer, " = ");
    if (prefix->uri.data == NULL) {
        put(writer, "inherit");
    } else {
        put_literal(writer, prefix->uri);
    }
    put(writer, "\n");
}

void put_declarations(struct rng_writer *writer) {
    bool has_default = writer->default_ns.data != NULL;
    if (has_default) {
        put(writer, "default namespace = ");
        put_literal(writer, writer->default_ns);
        put(writer, "\n");
    }
    for (size_t at = 0; at < writer->namespaces.count; at++) {
        put_declaration(writer, "namespace ", &writer->namespaces.list[at]);
    }
    for (size_t at = 0; at < writer->libraries.count; at++) {
        struct bytes uri = NO_BYTES;
        struct rng_prefix prefix = writer->libraries.list[at];
        add_escaped_uri(&uri, prefix.uri);
        prefix.uri = (struct span){uri.data == NULL ? "" : uri.data, uri.length};
        put_declaration(writer, "datatypes ", &prefix);
        writer->text->failed |= uri.failed;
        bytes_free(&uri);
    }
    put(writer, has_default || writer->namespaces.count + writer->libraries.count > 0 ? "\n" : "");
}
