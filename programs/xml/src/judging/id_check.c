#include "id_check.h"

#include <stdlib.h>
#include <string.h>

void id_check_open(struct id_check *check, const struct id_types *types) {
    memset(check, 0, sizeof *check);
    check->types = types;
    text_table_open(&check->texts);
    text_table_open(&check->names);
}

void id_check_close(struct id_check *check) {
    text_table_close(&check->texts);
    text_table_close(&check->names);
    free(check->uses);
    bytes_free(&check->name);
    bytes_free(&check->key);
}

void id_check_begin(struct id_check *check) {
    if (check->failed) { /* what could not grow would stay so */
        const struct id_types *types = check->types;
        id_check_close(check);
        id_check_open(check, types);
    }
    text_table_clear(&check->texts);
    text_table_clear(&check->names);
    if (check->use_capacity > 4096) {
        free(check->uses);
        check->uses = NULL;
        check->use_capacity = 0;
    }
    check->order = 0;
    check->fault = (struct id_fault){.is_there = false};
}

static bool grows(struct id_check *check, void **items, uint32_t count, uint32_t *capacity, size_t size) {
    check->failed |= !items_grow(items, count, capacity, size);
    return !check->failed;
}

/* The use of a text; NULL: out of memory. */
static struct id_use *use_of(struct id_check *check, struct span text, uint32_t *number) {
    uint32_t before = check->texts.count;
    *number = text_table_put(&check->texts, text);
    if (*number == NO_TEXT || !grows(check, (void **)&check->uses, *number, &check->use_capacity, sizeof *check->uses)) {
        check->failed = true;
        return NULL;
    }
    if (*number == before) {
        check->uses[*number] = (struct id_use){{0, 0}, {0, 0}, 0, 0};
    }
    return &check->uses[*number];
}

/* Takes an ID, or a text that refers to one. */
static void take_text(struct id_check *check, enum id_type type, struct span text, uint32_t name) {
    uint32_t number;
    struct id_use *use = use_of(check, text, &number);
    uint64_t order = ++check->order;
    if (use == NULL) {
        return;
    }
    if (type != ID_ID) {
        if (use->id.line == 0 && use->reference.line == 0) {
            use->reference = check->place;
            use->order = order;
            use->name = name;
        }
    } else if (use->id.line == 0) {
        use->id = check->place;
    } else if (!check->fault.is_there) {
        check->fault = (struct id_fault){true, true, order, check->place, use->id, number, name};
    }
}

static bool is_blank(char byte) {
    return byte == ' ' || byte == '\t' || byte == '\n' || byte == '\r';
}

/* Takes the value of an attribute with an ID-type: the texts between its blanks. */
static void take_value(struct id_check *check, enum id_type type, struct span value, uint32_t name) {
    for (size_t at = 0; at < value.length;) {
        size_t begin = at;
        while (at < value.length && !is_blank(value.data[at])) {
            at++;
        }
        if (at > begin) {
            take_text(check, type, (struct span){value.data + begin, at - begin}, name);
        }
        at += at < value.length;
    }
}

/* The number of a name as it is written. */
static uint32_t written(struct id_check *check, const struct event_name *name) {
    bytes_clear(&check->name);
    bytes_add(&check->name, name->prefix.data, name->prefix.length);
    bytes_add_text(&check->name, name->prefix.length > 0 ? ":" : "");
    bytes_add(&check->name, name->local.data, name->local.length);
    uint32_t number = check->name.failed ? NO_TEXT : text_table_put(&check->names, (struct span){check->name.data, check->name.length});
    check->failed |= number == NO_TEXT;
    return number;
}

bool id_check_take(struct id_check *check, const struct start_event *tag) {
    for (size_t at = 0; at < tag->attribute_count && !check->failed; at++) {
        const struct event_attribute *attribute = &tag->attributes[at];
        if (text_table_find(&check->types->attributes, attribute->name.local) == NO_TEXT) {
            continue;
        }
        struct id_names names = {tag->name->uri, tag->name->local, attribute->name.uri, attribute->name.local};
        enum id_type type = id_types_find(check->types, &names, &check->key);
        if (type != ID_NONE) {
            check->place = tag->place;
            take_value(check, type, attribute->value, written(check, &attribute->name));
        }
    }
    check->failed |= check->key.failed;
    return !check->failed;
}

size_t id_check_held(const struct id_check *check) {
    return text_table_held(&check->texts) + text_table_held(&check->names) + check->use_capacity * sizeof *check->uses;
}

struct id_fault id_check_end(const struct id_check *check) {
    struct id_fault first = check->fault;
    for (uint32_t text = 0; text < check->texts.count; text++) {
        const struct id_use *use = &check->uses[text];
        bool is_lost = use->reference.line > 0 && use->id.line == 0;
        if (is_lost && (!first.is_there || use->order < first.order)) {
            first = (struct id_fault){true, false, use->order, use->reference, {0, 0}, text, use->name};
        }
    }
    return first;
}
