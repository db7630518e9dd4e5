#include "annotation_names.h"

#include <stdlib.h>

#define RELAX_NG "http://relaxng.org/ns/structure/1.0"
#define XMLNS "http://www.w3.org/2000/xmlns"

struct prefix {
    struct span name;
    size_t uri; /* where in the URIs it begins */
    size_t length;
    bool is_inherited;
};

struct attribute {
    struct span uri;
    struct span local;
    size_t at; /* in the file */
};

static int compared(struct span one, struct span other) {
    size_t length = one.length < other.length ? one.length : other.length;
    int order = length == 0 ? 0 : memcmp(one.data, other.data, length);
    return order != 0 ? order : (one.length > other.length) - (one.length < other.length);
}

static bool is_text_of(struct span span, const char *text) {
    return compared(span, (struct span){text, strlen(text)}) == 0;
}

static int compared_prefixes(const void *one, const void *other) {
    return compared(((const struct prefix *)one)->name, ((const struct prefix *)other)->name);
}

static int compared_names(const struct attribute *one, const struct attribute *other) {
    int order = compared(one->local, other->local);
    return order != 0 ? order : compared(one->uri, other->uri);
}

static int compared_attributes(const void *one, const void *other) {
    const struct attribute *left = one;
    const struct attribute *right = other;
    int order = compared_names(left, right);
    return order != 0 ? order : (left->at > right->at) - (left->at < right->at);
}

static size_t prefix_count(const struct annotation_names *names) {
    return names->prefixes.length / sizeof(struct prefix);
}

static struct prefix *prefixes_of(const struct annotation_names *names) {
    return (struct prefix *)(void *)names->prefixes.data;
}

/* The URI of the last prefix has ended. */
static void end_uri(struct annotation_names *names) {
    if (prefix_count(names) > 0) {
        struct prefix *last = prefixes_of(names) + prefix_count(names) - 1;
        last->length = names->uris.length - last->uri;
    }
}

void annotation_prefix(struct annotation_names *names, struct span name) {
    end_uri(names);
    struct prefix prefix = {name, names->uris.length, 0, false};
    bytes_add(&names->prefixes, &prefix, sizeof prefix);
}

void annotation_inherits(struct annotation_names *names) {
    if (prefix_count(names) > 0) {
        prefixes_of(names)[prefix_count(names) - 1].is_inherited = true;
    }
}

/* The declarations are complete once a name comes. */
static void sort_prefixes(struct annotation_names *names) {
    if (!names->is_sorted) {
        annotation_prefix(names, (struct span){"xml", 3});
        bytes_add_text(&names->uris, "http://www.w3.org/XML/1998/namespace");
        end_uri(names);
        names->is_sorted = true;
        if (!annotation_names_failed(names)) {
            qsort(names->prefixes.data, prefix_count(names), sizeof(struct prefix), compared_prefixes);
        }
    }
}

/* A name with its namespace. Without a prefix it has none. */
struct expanded {
    struct span uri;
    struct span local;
    bool has_prefix;
    const char *fault; /* of the prefix */
};

static struct expanded expanded_name(struct annotation_names *names, const struct token *name) {
    struct expanded expanded = {{"", 0}, name->text, has_colon(name), NULL};
    if (!expanded.has_prefix) {
        return expanded;
    }
    sort_prefixes(names);
    const char *colon = memchr(name->text.data, ':', name->text.length);
    size_t length = (size_t)(colon - name->text.data);
    struct prefix key = {{name->text.data, length}, 0, 0, false};
    bool has_failed = annotation_names_failed(names);
    struct prefix *found = has_failed ? NULL : bsearch(&key, names->prefixes.data, prefix_count(names), sizeof key, compared_prefixes);
    expanded.local = (struct span){colon + 1, name->text.length - length - 1};
    if (found == NULL) {
        expanded.fault = "the prefix of this name in an annotation is not declared";
    } else if (found->is_inherited) {
        expanded.fault = "the namespace of a name in an annotation is not inherited";
    } else {
        expanded.uri = (struct span){names->uris.data + found->uri, found->length};
    }
    return expanded;
}

static const char *element_fault(const struct expanded *name, bool is_foreign) {
    bool is_own = is_foreign && name->fault == NULL && is_text_of(name->uri, RELAX_NG);
    return is_own ? "an annotation is not in the namespace of RELAX NG" : name->fault;
}

const char *annotation_element_fault(struct annotation_names *names, const struct token *name, bool is_foreign) {
    struct expanded expanded = expanded_name(names, name);
    return element_fault(&expanded, is_foreign);
}

const char *annotation_attribute_fault(struct annotation_names *names, const struct token *name, bool is_foreign) {
    struct expanded expanded = expanded_name(names, name);
    const char *fault = element_fault(&expanded, is_foreign);
    struct attribute attribute = {expanded.uri, expanded.local, name->at};
    if (fault != NULL) {
        return fault;
    }
    if (is_foreign && expanded.uri.length == 0) {
        return "an attribute of an annotation [ .. ] has a namespace";
    }
    if (is_text_of(expanded.uri, XMLNS) || (!expanded.has_prefix && is_text_of(expanded.local, "xmlns"))) {
        return "an attribute in an annotation declares no namespace";
    }
    bytes_add(&names->attributes, &attribute, sizeof attribute);
    return NULL;
}

bool annotation_attribute_twice(struct annotation_names *names, size_t *at) {
    struct attribute *list = (struct attribute *)(void *)names->attributes.data;
    size_t count = names->attributes.length / sizeof *list;
    bool is_found = false;
    if (count > 1) {
        qsort(list, count, sizeof *list, compared_attributes);
    }
    for (size_t next = 1; next < count; next++) {
        if (compared_names(&list[next - 1], &list[next]) == 0 && (!is_found || list[next].at < *at)) {
            *at = list[next].at;
            is_found = true;
        }
    }
    names->attributes.length = 0;
    return is_found;
}

bool annotation_names_failed(const struct annotation_names *names) {
    return names->uris.failed || names->prefixes.failed || names->attributes.failed;
}

void annotation_names_free(struct annotation_names *names) {
    bytes_free(&names->uris);
    bytes_free(&names->prefixes);
    bytes_free(&names->attributes);
}
