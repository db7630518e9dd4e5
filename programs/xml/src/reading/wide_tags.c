#include "wide_tags.h"

#include "entity_text.h"
#include "runs.h"
#include "xml_names.h"

#include <stdlib.h>

static size_t blanks_of(struct span text) {
    size_t at = 0;
    while (at < text.length && is_blank_byte(text.data[at])) {
        at++;
    }
    return at;
}

/* The length of the name at the start of the text, with colons. */
static size_t name_length(struct span text) {
    const struct run_scan name = {.kind = RUN_NAME};
    size_t at = run_length(&name, text);
    while (at < text.length && text.data[at] == ':') {
        at += 1 + run_length(&name, span_from(text, at + 1));
    }
    return at;
}

/* Whether the name declares a namespace. */
static bool is_declaration(struct span name) {
    return span_is(name, "xmlns") || span_begins(name, "xmlns:");
}

/* The length of the value at the start of the text, up to its quote; that of the text if this is not there. What may not be in a value ends it too. */
static size_t value_length(struct span text, char quote) {
    const struct run_scan value = {.kind = RUN_VALUE, .quote = quote};
    size_t at = run_length(&value, text);
    while (at < text.length && text.data[at] == '&') {
        at += 1 + run_length(&value, span_from(text, at + 1));
    }
    return at;
}

/* The place behind `=` and the blanks around it; 0: there is none. */
static size_t behind_equals(struct span text, size_t at) {
    at += blanks_of(span_from(text, at));
    bool is_there = at < text.length && text.data[at] == '=';
    return is_there ? at + 1 + blanks_of(span_from(text, at + 1)) : at < text.length ? 0 : at;
}

struct attribute_text attribute_at(struct span text) {
    static const struct attribute_text none = {0, false, {"", 0}, {"", 0}};
    static const struct attribute_text cut = {0, true, {"", 0}, {"", 0}};
    size_t colon = 0;
    size_t begin = blanks_of(text);
    if (begin == 0 || begin == text.length) {
        return begin > 0 || text.length == 0 ? cut : none;
    }
    struct span name = {text.data + begin, name_length(span_from(text, begin))};
    if (begin + name.length == text.length) {
        return cut;
    }
    size_t quote = behind_equals(text, begin + name.length);
    if (quote == text.length) {
        return cut;
    }
    if (quote == 0 || (text.data[quote] != '"' && text.data[quote] != '\'') || !is_qname(name, &colon) || is_declaration(name)) {
        return none;
    }
    struct span value = {text.data + quote + 1, value_length(span_from(text, quote + 1), text.data[quote])};
    size_t end = quote + 1 + value.length;
    if (end >= text.length) {
        return cut;
    }
    return text.data[end] == text.data[quote] ? (struct attribute_text){end + 1, false, name, value} : none;
}

/* The length of what is before the next reference. */
static size_t plain_length(struct span text) {
    const char *found = text.length == 0 ? NULL : memchr(text.data, '&', text.length);
    return found == NULL ? text.length : (size_t)(found - text.data);
}

/* Adds a value, with what its references give. */
static bool add_value(struct bytes *to, struct span value, const struct reference_reader *reader) {
    bool is_good = true;
    while (value.length > 0 && is_good) {
        size_t length = plain_length(value);
        is_good = entity_text_decoded((struct span){value.data, length}, to);
        value = span_from(value, length);
        length = value.length == 0 ? 0 : entity_text_character(value, to);
        if (value.length > 0 && length == 0 && is_good) {
            length = reader->expand(reader->context, value, to);
        }
        is_good = is_good && !to->failed && (value.length == 0 || length > 0);
        value = span_from(value, length);
    }
    return is_good;
}

static bool has_room(struct wide_tag *tag) {
    if (tag->count < tag->capacity) {
        return true;
    }
    size_t wanted = tag->capacity == 0 ? 64 : 2 * tag->capacity;
    struct wide_attribute *longer = realloc(tag->attributes, wanted * sizeof *longer);
    if (longer != NULL) {
        tag->attributes = longer;
        tag->capacity = wanted;
    }
    tag->text.failed |= longer == NULL;
    return longer != NULL;
}

bool wide_tag_add(struct wide_tag *tag, const struct attribute_text *attribute, const struct reference_reader *reader) {
    struct bytes *text = &tag->text;
    size_t begin = text->length;
    bytes_add(text, attribute->name.data, attribute->name.length);
    size_t value = text->length;
    if (!has_room(tag) || !add_value(text, attribute->value, reader)) {
        text->length = text->failed ? text->length : begin;
        return false;
    }
    tag->attributes[tag->count++] = (struct wide_attribute){begin, attribute->name.length, value, text->length - value};
    return !text->failed;
}

void wide_tag_forget(struct wide_tag *tag) {
    if (tag->count > 0) {
        bytes_free(&tag->text);
        tag->count = 0;
    }
}

void wide_tag_free(struct wide_tag *tag) {
    bytes_free(&tag->text);
    free(tag->attributes);
}

size_t wide_tag_held(const struct wide_tag *tag) {
    return tag->text.capacity + tag->capacity * sizeof *tag->attributes;
}

struct span wide_tag_name(const struct wide_tag *tag, size_t index) {
    const struct wide_attribute *attribute = &tag->attributes[index];
    return (struct span){tag->text.data + attribute->name, attribute->name_length};
}

char *wide_tag_value(const struct wide_tag *tag, size_t index, size_t *length) {
    const struct wide_attribute *attribute = &tag->attributes[index];
    *length = attribute->value_length;
    return tag->text.data + attribute->value;
}
