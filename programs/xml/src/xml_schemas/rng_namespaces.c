#include "rng_reading.h"

static const char xml_uri[] = "http://www.w3.org/XML/1998/namespace";
static const char xmlns_uri[] = "http://www.w3.org/2000/xmlns/";

struct span rng_namespace(const struct rng_tree *tree, uint32_t scope, struct span prefix) {
    for (uint32_t at = scope; at != 0; at = tree->declarations[at].around) {
        if (span_equal(tree->declarations[at].prefix, prefix)) {
            return tree->declarations[at].uri;
        }
    }
    return span_is(prefix, "xml") ? (struct span){xml_uri, sizeof xml_uri - 1} : (struct span){NULL, 0};
}

static bool is_malformed(struct reading *reading, const char *format, struct span text) {
    fault_set(reading->fault, FAULT_MALFORMED, reading->tag.place, format, (int)text.length, text.data);
    return false;
}

/* Whether a declaration is allowed (NS 3 and 5). */
static bool is_allowed(struct reading *reading, struct span prefix, struct span uri) {
    bool is_xml = span_is(prefix, "xml");
    if (is_xml != span_is(uri, xml_uri)) {
        return is_malformed(reading, "malformed XML: only the prefix 'xml' is that of %.*s", (struct span){xml_uri, sizeof xml_uri - 1});
    }
    if (span_is(prefix, "xmlns") || span_is(uri, xmlns_uri)) {
        return is_malformed(reading, "malformed XML: xmlns and its namespace are not declared%.*s", (struct span){"", 0});
    }
    if (prefix.length > 0 && uri.length == 0) {
        return is_malformed(reading, "malformed XML: the prefix '%.*s' is declared as nothing", prefix);
    }
    return true;
}

static bool declare(struct reading *reading, struct span prefix, struct span uri, uint32_t *scope) {
    struct rng_tree *tree = reading->tree;
    if (!is_allowed(reading, prefix, uri)) {
        return false;
    }
    uint32_t depth = *scope == 0 ? 1 : tree->declarations[*scope].depth + 1;
    if (depth > MOST_IN_SCOPE) { /* each name looks through them */
        fault_set(reading->fault, FAULT_OUTSIDE, reading->tag.place, "more than 1,024 declarations of namespaces are in scope: outside the profile");
        return false;
    }
    void *list = tree->declarations;
    if (!rng_grow(&list, tree->declaration_count, &tree->declaration_capacity, sizeof *tree->declarations)) {
        fault_set(reading->fault, FAULT_MEMORY, (struct place){0, 0}, "out of memory");
        return false;
    }
    tree->declarations = list;
    tree->declarations[tree->declaration_count] = (struct rng_declaration){prefix, uri, *scope, depth};
    *scope = (uint32_t)tree->declaration_count++;
    return true;
}

/* Whether an attribute is a declaration, and of which prefix. */
static bool is_declaration(struct span name, struct span *prefix) {
    static const char word[] = "xmlns";
    size_t length = sizeof word - 1;
    if (name.length < length || memcmp(name.data, word, length) != 0 || (name.length > length && name.data[length] != ':')) {
        return false;
    }
    *prefix = name.length == length ? (struct span){"", 0} : (struct span){name.data + length + 1, name.length - length - 1};
    return true;
}

static bool take_declarations(struct reading *reading, uint32_t *scope) {
    struct tag *tag = &reading->tag;
    size_t kept = 0;
    for (size_t at = 0; at < tag->count; at++) {
        struct span prefix;
        if (!is_declaration(tag->attributes[at].name, &prefix)) {
            tag->attributes[kept++] = tag->attributes[at];
        } else if (!declare(reading, prefix, tag->attributes[at].value, scope)) {
            return false;
        }
    }
    tag->count = kept;
    return true;
}

/* Divides a name, and finds its namespace. The default namespace is none of an attribute. */
static bool resolve(struct reading *reading, uint32_t scope, bool is_element, struct span name, struct span *uri, struct span *local) {
    const char *colon = memchr(name.data, ':', name.length);
    struct span prefix = {name.data, colon == NULL ? 0 : (size_t)(colon - name.data)};
    *local = colon == NULL ? name : (struct span){colon + 1, name.length - prefix.length - 1};
    *uri = colon == NULL && !is_element ? (struct span){NULL, 0} : rng_namespace(reading->tree, scope, prefix);
    if (colon != NULL && uri->data == NULL) {
        return is_malformed(reading, "malformed XML: the prefix '%.*s' is not declared", prefix);
    }
    return true;
}

/* Whether no attribute before this one has its name. */
static bool is_new(struct reading *reading, size_t index) {
    const struct attribute *list = reading->tag.attributes;
    for (size_t at = 0; at < index; at++) {
        if (span_equal(list[at].local, list[index].local) && span_equal(list[at].uri, list[index].uri)) {
            return is_malformed(reading, "malformed XML: there are two attributes '%.*s'", list[index].local);
        }
    }
    return true;
}

bool tag_resolve(struct reading *reading, uint32_t *scope) {
    struct tag *tag = &reading->tag;
    bool is_good = take_declarations(reading, scope) && resolve(reading, *scope, true, tag->name, &tag->uri, &tag->local);
    for (size_t at = 0; at < tag->count && is_good; at++) {
        struct attribute *attribute = &tag->attributes[at];
        is_good = resolve(reading, *scope, false, attribute->name, &attribute->uri, &attribute->local) && is_new(reading, at);
    }
    return is_good;
}
