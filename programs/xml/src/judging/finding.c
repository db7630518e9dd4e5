#include "finding.h"

#include "expected.h"
#include "xml_names.h"

#include <stdlib.h>

void add_written(struct bytes *to, const struct event_name *name) {
    bytes_add(to, name->prefix.data, name->prefix.length);
    bytes_add_text(to, name->prefix.length > 0 ? ":" : "");
    bytes_add(to, name->local.data, name->local.length);
}

void finding_name(struct finding *found, const struct event_name *name) {
    bytes_clear(&found->name);
    bytes_clear(&found->expanded);
    add_written(&found->name, name);
    bytes_add(&found->expanded, name->uri.data, name->uri.length);
    bytes_add(&found->expanded, name->local.data, name->local.length);
    found->uri_length = name->uri.length;
}

struct span finding_uri(const struct finding *found) {
    return (struct span){found->expanded.data, found->uri_length};
}

struct span finding_local(const struct finding *found) {
    return (struct span){found->expanded.data + found->uri_length, found->expanded.length - found->uri_length};
}

/* Whether an attribute is wrong. */
static bool is_attribute(const struct finding *found) {
    return found->reason.kind == RNCV_REASON_ATTRIBUTE || found->reason.kind == RNCV_REASON_VALUE;
}

static struct event_name name_of(const struct finding *found) {
    return (struct event_name){{"", 0}, finding_local(found), finding_uri(found)};
}

/* ---- questions */

/* Asks why nothing can follow. */
static int32_t ask_reason(struct finding *found, rncv_schema *schema, struct call_room *room, const struct event_attribute *attributes, size_t count) {
    if (found->is_end) {
        return rncv_events_end_reason(schema, &found->reason);
    }
    const struct event_name name = name_of(found);
    return call_room_fill(room, attributes, count) ? library_start_reason(schema, &name, room->attributes, count, &found->reason) : RNCV_MEMORY;
}

/* The first line of the text, with its line feed. */
static struct span first_line(struct span text) {
    const char *feed = text.length == 0 ? NULL : memchr(text.data, '\n', text.length);
    return (struct span){text.data, feed == NULL ? text.length : (size_t)(feed + 1 - text.data)};
}

static bool has_line(struct span text, struct span line) {
    bool is_there = false;
    for (struct span here = first_line(text); here.length > 0 && !is_there; here = first_line(text)) {
        is_there = span_equal(here, line);
        text = (struct span){text.data + here.length, text.length - here.length};
    }
    return is_there;
}

/* Adds the lines of what a tag may have; what it must have is left out where the other text does not have it. */
static void add_lines(struct bytes *to, struct span text, struct span other) {
    for (struct span line = first_line(text); line.length > 0; line = first_line(text)) {
        bool is_wanted = line.data[0] != 'r' || has_line(other, line);
        bytes_add(to, line.data, is_wanted ? line.length : 0);
        text = (struct span){text.data + line.length, text.length - line.length};
    }
}

/* Adds what the tag may have to what it may have by other documents. It must have what it must have by each of them. */
static bool add_options(struct finding *found, const struct bytes *text) {
    struct bytes all = NO_BYTES;
    struct span own = {text->data, text->length};
    struct span before = {found->options.data, found->options.length};
    add_lines(&all, own, found->has_options ? before : own);
    add_lines(&all, before, own);
    bytes_free(&found->options);
    found->options = all;
    found->has_options = true;
    return !all.failed;
}

/* Asks which attributes the tag could have had. */
static bool ask_all(struct finding *found, rncv_schema *schema) {
    struct bytes text = NO_BYTES;
    bool is_good = expected_get_tag(schema, finding_uri(found), finding_local(found), &text);
    bytes_add(&found->tag, text.data, text.length);
    bytes_free(&text);
    return is_good && !found->tag.failed;
}

/* Asks what the tag could have had behind these attributes, and as the value of the attribute with the other name. */
static bool ask_behind(struct finding *found, rncv_schema *schema, const rncv_attribute *attributes, size_t count, const struct event_name *named) {
    const struct event_name name = name_of(found);
    struct bytes text = NO_BYTES;
    bool is_left = false;
    bool is_good = expected_get_options(schema, &name, attributes, count, named, &text, &is_left);
    is_good = is_good && (!is_left || add_options(found, &text));
    bytes_free(&text);
    return is_good;
}

/* Asks whether an attribute is right without the others. */
static bool ask_alone(struct finding *found, rncv_schema *schema, const rncv_attribute *attribute) {
    const struct event_name name = name_of(found);
    struct bytes text = NO_BYTES;
    bool is_left = false;
    bool is_good = expected_get_options(schema, &name, attribute, 1, &name, &text, &is_left);
    found->is_right_alone |= is_left;
    bytes_free(&text);
    return is_good;
}

bool finding_ask_tag(struct finding *found, rncv_schema *schema, struct call_room *room, const struct event_attribute *attributes, size_t count) {
    size_t wrong = is_attribute(found) && found->reason.attribute < count ? (size_t)found->reason.attribute : count;
    if (wrong == count && found->reason.kind != RNCV_REASON_MISSING) {
        return true;
    }
    const struct event_name none = {{"", 0}, {"", 0}, {"", 0}};
    return call_room_fill(room, attributes, count) && (found->reason.kind != RNCV_REASON_ATTRIBUTE || ask_all(found, schema)) &&
           (found->reason.kind != RNCV_REASON_VALUE || ask_alone(found, schema, room->attributes + wrong)) &&
           ask_behind(found, schema, room->attributes, wrong, wrong < count ? &attributes[wrong].name : &none);
}

/* ---- what is kept of the start */

/* Keeps a text, for which there is room. */
static struct span kept(struct bytes *texts, struct span text) {
    size_t at = texts->length;
    bytes_add(texts, text.data, text.length);
    return (struct span){texts->data + at, text.length};
}

static size_t length_of(const struct event_attribute *attribute) {
    return attribute->name.prefix.length + attribute->name.local.length + attribute->name.uri.length + attribute->value.length;
}

/* Keeps the names of the attributes, and the value of the one that is wrong. False: memory ran out. */
static bool keep_attributes(struct finding *found, const struct event_attribute *attributes, size_t count) {
    size_t length = 1;
    found->attributes = count == 0 ? NULL : calloc(count, sizeof *found->attributes);
    if (count > 0 && found->attributes == NULL) {
        return false;
    }
    found->attribute_count = count;
    for (size_t at = 0; at < count; at++) {
        found->attributes[at] = attributes[at];
        if (&found->attributes[at] != finding_attribute(found)) {
            found->attributes[at].value = (struct span){"", 0};
        }
        length += length_of(&found->attributes[at]);
    }
    if (!bytes_reserve(&found->texts, length)) {
        return false;
    }
    for (size_t at = 0; at < count; at++) {
        struct event_attribute *here = &found->attributes[at];
        here->name.prefix = kept(&found->texts, here->name.prefix);
        here->name.local = kept(&found->texts, here->name.local);
        here->name.uri = kept(&found->texts, here->name.uri);
        here->value = kept(&found->texts, here->value);
    }
    return true;
}

bool finding_ask(struct finding *found, rncv_schema *schema, struct call_room *room, const struct event_attribute *attributes, size_t count) {
    if (found->name.failed || found->expanded.failed || ask_reason(found, schema, room, attributes, count) != RNCV_DONE) {
        return false;
    }
    return keep_attributes(found, attributes, count) && expected_get(schema, &found->expected) &&
           (found->is_end || finding_ask_tag(found, schema, room, attributes, count)) &&
           (!found->has_text || expected_get_in_place(schema, &found->in_place));
}

const struct event_attribute *finding_attribute(const struct finding *found) {
    return is_attribute(found) && found->reason.attribute < found->attribute_count ? &found->attributes[found->reason.attribute] : NULL;
}

bool finding_is_told(const struct finding *found) {
    return found->reason.kind != RNCV_REASON_NONE && (!is_attribute(found) || finding_attribute(found) != NULL);
}

bool finding_is_text(const struct finding *found) {
    return found->has_text && (found->reason.kind == RNCV_REASON_TEXT || found->reason.kind == RNCV_REASON_TEXT_VALUE);
}

void finding_free(struct finding *found) {
    bytes_free(&found->name);
    bytes_free(&found->expanded);
    bytes_free(&found->expected);
    bytes_free(&found->tag);
    bytes_free(&found->options);
    bytes_free(&found->in_place);
    bytes_free(&found->text);
    bytes_free(&found->around);
    bytes_free(&found->texts);
    free(found->attributes);
}
