#include "tag_names.h"

#include "long_uris.h"
#include "shown.h"

#include <stdint.h>
#include <string.h>

enum { SHOWN_CHARACTERS = 40 /* of a namespace */ };

static bool is_word(struct span span, const char *word) {
    size_t length = strlen(word);
    return span.length == length && memcmp(span.data, word, length) == 0;
}

static bool is_equal(struct span one, struct span other) {
    return one.length == other.length && memcmp(one.data, other.data, one.length) == 0;
}

static void add_span(struct bytes *words, struct span span) {
    bytes_add(words, span.data, span.length);
}

/* Adds the name as it is written. */
static void add_name(struct bytes *words, const struct event_name *name) {
    add_span(words, name->prefix);
    bytes_add_text(words, name->prefix.length > 0 ? ":" : "");
    add_span(words, name->local);
}

/* Adds the name of the attribute that declares this prefix. */
static void add_declaring(struct bytes *words, struct span prefix) {
    bytes_add_text(words, prefix.length > 0 ? "xmlns:" : "xmlns");
    add_span(words, prefix);
}

/* Whether a local name or a prefix is none. What libxml2 takes in the place of one has a colon in it. */
static bool is_bad(struct span name) {
    return memchr(name.data, ':', name.length) != NULL;
}

static bool has_bad_name_in(const struct start_event *tag, struct bytes *words) {
    if (is_bad(tag->name->local)) {
        bytes_add_text(words, "the name of the element '");
        add_name(words, tag->name);
        return true;
    }
    for (size_t at = 0; at < tag->declaration_count; at++) {
        if (is_bad(tag->declarations[at].prefix)) {
            bytes_add_text(words, "the name of the attribute '");
            add_declaring(words, tag->declarations[at].prefix);
            return true;
        }
    }
    for (size_t at = 0; at < tag->attribute_count; at++) {
        if (is_bad(tag->attributes[at].name.local)) {
            bytes_add_text(words, "the name of the attribute '");
            add_name(words, &tag->attributes[at].name);
            return true;
        }
    }
    return false;
}

/* Why the declaration is not allowed; NULL if it is. */
static const char *forbidden_why(const struct event_declaration *declaration) {
    bool is_xml = is_word(declaration->prefix, "xml");
    if (is_word(declaration->prefix, "xmlns")) {
        return "xmlns is never declared";
    }
    if (is_word(declaration->uri, "http://www.w3.org/2000/xmlns/")) {
        return "that namespace is never declared";
    }
    if (declaration->prefix.length > 0 && declaration->uri.length == 0) {
        return "a prefix has a namespace";
    }
    if (is_xml == is_word(declaration->uri, "http://www.w3.org/XML/1998/namespace")) {
        return NULL;
    }
    return is_xml ? "xml has its own namespace" : "that namespace has the prefix xml";
}

bool tag_has_forbidden(const struct start_event *tag, struct bytes *words) {
    for (size_t at = 0; at < tag->declaration_count; at++) {
        const struct event_declaration *declaration = &tag->declarations[at];
        const char *why = forbidden_why(declaration);
        if (why != NULL) {
            bytes_add_text(words, "the declaration ");
            add_declaring(words, declaration->prefix);
            bytes_add_text(words, "=\"");
            add_shown(words, declaration->uri.data, declaration->uri.length, SHOWN_CHARACTERS);
            bytes_format(words, "\" is not allowed, %s (NS 3, 5)", why);
            return true;
        }
    }
    return false;
}

static bool is_undeclared(const struct event_name *name) {
    return name->prefix.length > 0 && name->uri.length == 0;
}

static bool has_undeclared(const struct start_event *tag, struct bytes *words) {
    const struct event_name *found = is_undeclared(tag->name) ? tag->name : NULL;
    for (size_t at = 0; at < tag->attribute_count && found == NULL; at++) {
        found = is_undeclared(&tag->attributes[at].name) ? &tag->attributes[at].name : NULL;
    }
    if (found != NULL) {
        bytes_add_text(words, "the prefix '");
        add_span(words, found->prefix);
        bytes_add_text(words, "' is not declared (NS 5)");
    }
    return found != NULL;
}

/* The first attribute before this one that has its name; NULL: there is none. */
static const struct event_name *double_of(const struct start_event *tag, size_t index) {
    const struct event_name *name = &tag->attributes[index].name;
    for (size_t at = 0; at < index; at++) {
        const struct event_name *other = &tag->attributes[at].name;
        if (is_equal(other->local, name->local) && uris_are_same(other->uri, name->uri)) {
            return other;
        }
    }
    return NULL;
}

static bool has_double_in(const struct start_event *tag, struct bytes *words) {
    for (size_t at = 1; at < tag->attribute_count; at++) {
        const struct event_name *other = double_of(tag, at);
        if (other != NULL) {
            bytes_add_text(words, "the attributes '");
            add_name(words, other);
            bytes_add_text(words, "' and '");
            add_name(words, &tag->attributes[at].name);
            bytes_add_text(words, "' have one name (NS 6.3)");
            return true;
        }
    }
    return false;
}

int tag_names_fault(const struct start_event *tag, bool has_bad_name, bool has_double, struct bytes *words) {
    if (has_bad_name && has_bad_name_in(tag, words)) {
        bytes_add_text(words, "' is no QName (NS 4)");
        return 6;
    }
    if (tag_has_forbidden(tag, words) || has_undeclared(tag, words)) {
        return 11;
    }
    return has_double && has_double_in(tag, words) ? 12 : 0;
}
