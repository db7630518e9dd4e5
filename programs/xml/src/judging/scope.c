#include "scope.h"

#include "text_table.h"
#include "xml_names.h"

#include <stdlib.h>

#define XML_NAMESPACE "http://www.w3.org/XML/1998/namespace"

static struct span prefix_of(const struct scope *scope, const struct binding *binding) {
    return (struct span){scope->texts.data + binding->at, binding->prefix_length};
}

static struct span uri_of(const struct scope *scope, const struct binding *binding) {
    return (struct span){scope->texts.data + binding->at + binding->prefix_length, binding->uri_length};
}

void scope_declare(struct scope *scope, const struct event_declaration *declaration, size_t depth) {
    struct binding binding = {scope->texts.length, declaration->prefix.length, declaration->uri.length, depth};
    if (scope->failed) {
        return;
    }
    bool has_room = bytes_reserve(&scope->texts, declaration->prefix.length + declaration->uri.length + 1);
    if (!has_room || !items_grow((void **)&scope->bindings, scope->count, &scope->capacity, sizeof *scope->bindings)) {
        scope->failed = true;
        return;
    }
    bytes_add(&scope->texts, declaration->prefix.data, declaration->prefix.length);
    bytes_add(&scope->texts, declaration->uri.data, declaration->uri.length);
    scope->bindings[scope->count++] = binding;
}

void scope_keep(struct scope *scope, size_t depth) {
    while (scope->count > 0 && scope->bindings[scope->count - 1].depth > depth) {
        scope->texts.length = scope->bindings[--scope->count].at;
    }
}

size_t scope_depth(const struct scope *scope) {
    return scope->count == 0 ? 0 : scope->bindings[scope->count - 1].depth;
}

size_t scope_held(const struct scope *scope) {
    return scope->texts.length + scope->count * sizeof *scope->bindings;
}

void scope_clear(struct scope *scope) {
    if (scope->texts.failed) { /* what could not grow would stay so */
        bytes_free(&scope->texts);
    }
    bytes_clear(&scope->texts);
    scope->count = 0;
    scope->failed = false;
}

void scope_free(struct scope *scope) {
    bytes_free(&scope->texts);
    free(scope->bindings);
}

/* Whether a declaration has no later one of the same prefix. */
static bool is_seen(const struct scope *scope, uint32_t index) {
    struct span prefix = prefix_of(scope, &scope->bindings[index]);
    for (uint32_t at = index + 1; at < scope->count; at++) {
        if (span_equal(prefix_of(scope, &scope->bindings[at]), prefix)) {
            return false;
        }
    }
    return true;
}

/* Finds a prefix for the namespace, the innermost one first. False: there is none. */
static bool find_prefix(const struct scope *scope, struct span uri, bool is_attribute, struct span *prefix) {
    for (uint32_t at = scope->count; at > 0; at--) {
        const struct binding *here = &scope->bindings[at - 1];
        if (span_equal(uri_of(scope, here), uri) && (!is_attribute || here->prefix_length > 0) && is_seen(scope, at - 1)) {
            *prefix = prefix_of(scope, here);
            return true;
        }
    }
    *prefix = (struct span){"xml", strlen("xml")};
    return span_is(uri, XML_NAMESPACE);
}

/* Whether a name without prefix is in no namespace there. */
static bool has_no_default(const struct scope *scope) {
    for (uint32_t at = scope->count; at > 0; at--) {
        if (scope->bindings[at - 1].prefix_length == 0) {
            return scope->bindings[at - 1].uri_length == 0;
        }
    }
    return true;
}

void add_scoped(struct bytes *to, const struct scope *scope, struct span uri, struct span local, bool is_attribute) {
    struct span prefix = {"", 0};
    bool is_plain = uri.length == 0 ? is_attribute || has_no_default(scope) : find_prefix(scope, uri, is_attribute, &prefix);
    if (!is_plain) {
        bytes_add_byte(to, '{');
        bytes_add(to, uri.data, uri.length);
        bytes_add_byte(to, '}');
    } else if (prefix.length > 0) {
        bytes_add(to, prefix.data, prefix.length);
        bytes_add_byte(to, ':');
    }
    bytes_add(to, local.data, local.length);
}
