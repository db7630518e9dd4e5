#include "id_form.h"
#include "xml_names.h"

#include <stdlib.h>
#include <string.h>

/* A search for ID-types in the elements of a form. */
struct searching {
    struct id_types *types;
    struct form form;
    struct bytes *unsound;
    struct bytes key;
    struct part *waiting; /* what is still to be looked at in this element */
    uint32_t count, capacity;
    uint32_t time;    /* which look at an element this is */
    uint32_t element; /* its number */
    bool is_second;   /* all ID-types are known, and attributes without one are compared with them */
};

static bool out_of_memory(struct searching *searching) {
    searching->form.failed = true;
    return false;
}

/* Adds a name, or what a class begins with. */
static void add_class(struct searching *searching, uint32_t class) {
    const struct form_class *here = &searching->form.classes[class];
    while (here->kind == CLASS_ONE_OF && here->child != 0) {
        here = &searching->form.classes[here->child];
    }
    if (here->uri.length > 0) {
        bytes_add_text(searching->unsound, "{");
        bytes_add(searching->unsound, here->uri.data, here->uri.length);
        bytes_add_text(searching->unsound, "}");
    }
    bytes_add(searching->unsound, here->local.data, here->local.length);
}

/* Notes why section 5 does not allow the schema. The first reason counts. */
static void is_unsound(struct searching *searching, const char *before, uint32_t attribute, const char *after) {
    struct bytes *unsound = searching->unsound;
    if (unsound->length > 0) {
        return;
    }
    bytes_add_text(unsound, before);
    if (attribute != NO_CLASS) {
        add_class(searching, attribute);
    }
    bytes_add_text(unsound, after);
    bytes_add_text(unsound, " in element ");
    add_class(searching, searching->form.elements[searching->element].class);
}

static void wait_for(struct searching *searching, struct part part) {
    if (part.kind != PART_DATA && part.kind != PART_PATTERN) {
        return;
    }
    if (!items_grow((void **)&searching->waiting, searching->count, &searching->capacity, sizeof *searching->waiting)) {
        out_of_memory(searching);
        return;
    }
    searching->waiting[searching->count++] = part;
}

static void add_key(struct bytes *key, const struct id_names *names) {
    const struct span parts[] = {names->element_uri, names->element, names->attribute_uri, names->attribute};
    bytes_clear(key);
    for (size_t at = 0; at < 4; at++) {
        bytes_add(key, parts[at].data, parts[at].length);
        bytes_add_byte(key, '\0'); /* no name has it */
    }
}

enum id_type id_types_find(const struct id_types *types, const struct id_names *names, struct bytes *key) {
    add_key(key, names);
    uint32_t pair = key->failed ? NO_TEXT : text_table_find(&types->pairs, (struct span){key->data, key->length});
    return pair == NO_TEXT ? ID_NONE : (enum id_type)types->types[pair];
}

/* The pairs of an element's name, by the number of its key. */
static uint32_t element_of(struct searching *searching, const struct id_names *names, bool is_new) {
    struct id_types *types = searching->types;
    struct id_names element = {names->element_uri, names->element, {"", 0}, {"", 0}};
    add_key(&searching->key, &element);
    struct span key = {searching->key.data, searching->key.length};
    if (searching->key.failed) {
        out_of_memory(searching);
        return NO_TEXT;
    }
    if (!is_new) {
        return text_table_find(&types->elements, key);
    }
    uint32_t number = text_table_put(&types->elements, key);
    if (number == NO_TEXT || !items_grow((void **)&types->first_pairs, number, &types->element_capacity, sizeof *types->first_pairs)) {
        out_of_memory(searching);
        return NO_TEXT;
    }
    return number;
}

/* Adds a pair. If it has another ID-type already, the schema is not sound. */
static void add_pair(struct searching *searching, const struct id_names *names, enum id_type type, uint32_t attribute) {
    struct id_types *types = searching->types;
    uint32_t element = element_of(searching, names, true);
    uint32_t count = types->pairs.count;
    if (element == NO_TEXT) {
        return;
    }
    add_key(&searching->key, names);
    uint32_t pair = searching->key.failed ? NO_TEXT : text_table_put(&types->pairs, (struct span){searching->key.data, searching->key.length});
    if (pair == NO_TEXT || text_table_put(&types->attributes, names->attribute) == NO_TEXT ||
        !items_grow((void **)&types->types, pair, &types->pair_capacity, sizeof *types->types) ||
        !items_grow((void **)&types->next_pairs, pair, &types->next_capacity, sizeof *types->next_pairs)) {
        out_of_memory(searching);
    } else if (pair < count && types->types[pair] != type) {
        is_unsound(searching, "attribute ", attribute, " has two ID-types");
    } else if (pair == count) {
        types->types[pair] = (uint8_t)type;
        types->next_pairs[pair] = types->first_pairs[element];
        types->first_pairs[element] = pair + 1;
    }
}

/* Notes an attribute with an ID-type. It has one name, and its element has names alone. */
static void note_type(struct searching *searching, const struct form_line *attribute, enum id_type type) {
    struct form *form = &searching->form;
    const struct form_class *name = &form->classes[attribute->class];
    uint32_t class = form->elements[searching->element].class;
    bool is_choice = form->classes[class].kind == CLASS_ONE_OF;
    if (name->kind != CLASS_ONE_NAME) {
        is_unsound(searching, "an attribute with an ID-type has more than one name: ", attribute->class, "");
        return;
    }
    for (uint32_t at = is_choice ? form->classes[class].child : class; at != NO_CLASS && form_step(form); at = is_choice ? form->classes[at].next : NO_CLASS) {
        const struct form_class *element = &form->classes[at];
        struct id_names names = {element->uri, element->local, name->uri, name->local};
        if (element->kind != CLASS_ONE_NAME) {
            is_unsound(searching, "attribute ", attribute->class, " has an ID-type, and its element has any name of a class");
            return;
        }
        add_pair(searching, &names, type, attribute->class);
    }
}

/* The names of a pair. */
static struct id_names names_of(const struct text_table *pairs, uint32_t pair) {
    struct span key = text_table_text(pairs, pair);
    struct span parts[4];
    for (size_t at = 0; at < 4; at++) {
        size_t length = strlen(key.data);
        parts[at] = (struct span){key.data, length};
        key.data += length + 1;
    }
    return (struct id_names){parts[0], parts[1], parts[2], parts[3]};
}

/* Whether an attribute without an ID-type may be one that has an ID-type in an element of this name. */
static void compare_with(struct searching *searching, uint32_t attribute, uint32_t element) {
    const struct id_types *types = searching->types;
    for (uint32_t next = types->first_pairs[element]; next != 0 && form_step(&searching->form); next = types->next_pairs[next - 1]) {
        struct id_names names = names_of(&types->pairs, next - 1);
        if (form_class_has(&searching->form, attribute, names.attribute_uri, names.attribute)) {
            is_unsound(searching, "attribute ", attribute, " has an ID-type at one place and none at another");
        }
    }
}

/* Compares an attribute without an ID-type with those that have one. */
static void compare(struct searching *searching, uint32_t attribute) {
    struct form *form = &searching->form;
    uint32_t class = form->elements[searching->element].class;
    const struct form_class *element = &form->classes[class];
    if (element->kind == CLASS_ONE_NAME) {
        struct id_names names = {element->uri, element->local, {"", 0}, {"", 0}};
        uint32_t number = element_of(searching, &names, false);
        if (number != NO_TEXT) {
            compare_with(searching, attribute, number);
        }
        return;
    }
    for (uint32_t number = 0; number < searching->types->elements.count && form_step(form); number++) {
        struct id_names names = names_of(&searching->types->elements, number);
        if (form_class_has(form, class, names.element_uri, names.element)) {
            compare_with(searching, attribute, number);
        }
    }
}

/* The ID-type of an attribute: that of its datatype or value. What is left of its content, where none may be, waits. */
static enum id_type type_of(struct searching *searching, const struct form_line *attribute) {
    struct form *form = &searching->form;
    struct part part = attribute->one;
    if (part.kind == PART_DATA && !part.is_item) {
        return (enum id_type)part.type;
    }
    const struct form_line *line = part.kind == PART_PATTERN ? &form->patterns[part.number] : NULL;
    if (line != NULL && line->kind == LINE_EXCEPT) {
        wait_for(searching, line->other);
        return (enum id_type)line->one.type;
    }
    const struct form_line *items = line != NULL && line->kind == LINE_LIST && line->one.kind == PART_PATTERN ? &form->patterns[line->one.number] : NULL;
    if (items != NULL && items->kind == LINE_REPETITION && items->one.is_item) {
        return ID_IDREFS;
    }
    wait_for(searching, part);
    return ID_NONE;
}

static void meet(struct searching *searching, const struct form_line *attribute) {
    enum id_type type = type_of(searching, attribute);
    if (type != ID_NONE && !searching->is_second) {
        note_type(searching, attribute, type);
    } else if (type == ID_NONE && searching->is_second) {
        compare(searching, attribute->class);
    }
}

/* Looks at all attributes of an element. Outside of them nothing has an ID-type. */
static void search_element(struct searching *searching) {
    struct form *form = &searching->form;
    wait_for(searching, form->elements[searching->element].one);
    while (searching->count > 0 && searching->unsound->length == 0 && form_step(form)) {
        struct part part = searching->waiting[--searching->count];
        struct form_line *line = part.kind == PART_PATTERN ? &form->patterns[part.number] : NULL;
        if (line == NULL) {
            is_unsound(searching, "an ID-type is not directly in an attribute", NO_CLASS, "");
        } else if (line->seen != searching->time) {
            line->seen = searching->time;
            if (line->kind == LINE_ATTRIBUTE) {
                meet(searching, line);
            } else {
                wait_for(searching, line->one);
                wait_for(searching, line->other);
            }
        }
    }
}

/* Looks at all elements. */
static void search(struct searching *searching) {
    for (uint32_t at = 0; at < searching->form.element_count && searching->unsound->length == 0 && form_step(&searching->form); at++) {
        searching->element = at;
        searching->time++;
        search_element(searching);
    }
}

bool id_types_open(struct id_types *types, struct span form, bool is_marked, struct bytes *unsound) {
    struct searching searching = {.types = types, .unsound = unsound};
    memset(types, 0, sizeof *types);
    text_table_open(&types->pairs);
    text_table_open(&types->elements);
    text_table_open(&types->attributes);
    if (form_open(&searching.form, form, is_marked)) {
        search(&searching);
        searching.is_second = true;
        search(&searching);
    }
    if (searching.form.is_strange && !searching.form.failed) {
        bytes_clear(unsound);
        bytes_add_text(unsound, searching.form.steps == 0 ? "the schema is too large for that" : "the simple form of the schema is not understood");
    }
    bool is_good = !searching.form.failed && !unsound->failed;
    form_close(&searching.form);
    bytes_free(&searching.key);
    free(searching.waiting);
    return is_good;
}

void id_types_close(struct id_types *types) {
    text_table_close(&types->pairs);
    text_table_close(&types->elements);
    text_table_close(&types->attributes);
    free(types->types);
    free(types->next_pairs);
    free(types->first_pairs);
    memset(types, 0, sizeof *types);
}
