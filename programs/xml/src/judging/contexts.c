#include "contexts.h"

#include "xml_names.h"

#include <stdlib.h>

enum {
    MOST_SEARCHES = 65536, /* that are kept, .. */
    MOST_BYTES = 16777216, /* .. and the bytes of their names: a document chooses these */
    SEARCH_STEPS = 5000000
};

/* The first bytes of a set say which kind it is, so that no two are one. */
enum set_kind { SET_SPECIAL, SET_EXPECTED, SET_MISPLACED };

bool contexts_open(struct contexts *contexts, struct declared *declared) {
    memset(contexts, 0, sizeof *contexts);
    contexts->declared = declared;
    contexts->mentioned = calloc((size_t)declared->form.element_count + 1, sizeof *contexts->mentioned);
    text_table_open(&contexts->sets);
    text_table_open(&contexts->searches);
    bool is_good = contexts->mentioned != NULL;
    for (char special = CONTEXT_START; special <= CONTEXT_UNKNOWN && is_good; special++) {
        is_good = text_table_put(&contexts->sets, (struct span){(const char[]){SET_SPECIAL, special}, 2}) == (uint32_t)special;
    }
    return is_good;
}

void contexts_close(struct contexts *contexts) {
    for (uint32_t at = 0; contexts->mentioned != NULL && at <= contexts->declared->form.element_count; at++) {
        declared_list_free(&contexts->mentioned[at]);
    }
    free(contexts->mentioned);
    free(contexts->results);
    text_table_close(&contexts->sets);
    text_table_close(&contexts->searches);
    bytes_free(&contexts->key);
}

static enum set_kind kind_of(const struct contexts *contexts, uint32_t set) {
    return (enum set_kind)text_table_text(&contexts->sets, set).data[0];
}

uint32_t contexts_count(const struct contexts *contexts, uint32_t set) {
    return kind_of(contexts, set) == SET_SPECIAL ? 0 : (uint32_t)((text_table_text(&contexts->sets, set).length - 1) / sizeof(uint32_t));
}

uint32_t contexts_member(const struct contexts *contexts, uint32_t set, uint32_t index) {
    uint32_t number;
    memcpy(&number, text_table_text(&contexts->sets, set).data + 1 + index * sizeof number, sizeof number);
    return number;
}

/* The elements that an element mentions, or the start if the number is that of no element. They are looked for once. */
static const struct declared_list *mentioned_by(struct contexts *contexts, uint32_t number) {
    const struct form *form = &contexts->declared->form;
    struct declared_list *list = &contexts->mentioned[number];
    if (!list->is_known) {
        declared_list_free(list);
        declared_elements(contexts->declared, number == form->element_count ? form->root : form->elements[number].one, list);
    }
    return list;
}

/* Adds an element to the key if it has the name and is not there. */
static void add_element(struct contexts *contexts, uint32_t number, const struct event_name *name) {
    struct form *form = &contexts->declared->form;
    struct bytes *key = &contexts->key;
    bool is_there = !form_class_has(form, form->elements[number].class, name->uri, name->local);
    for (size_t at = 1; at < key->length && !is_there; at += sizeof number) {
        is_there = memcmp(key->data + at, &number, sizeof number) == 0;
    }
    if (!is_there) {
        bytes_add(key, &number, sizeof number);
    }
}

/* Adds the elements with the name that an element, or the start, mentions. False: they are not known. */
static bool add_mentioned(struct contexts *contexts, uint32_t around, const struct event_name *name) {
    const struct declared_list *list = mentioned_by(contexts, around);
    for (uint32_t at = 0; at < list->count && list->is_known; at++) {
        add_element(contexts, list->numbers[at], name);
    }
    return list->is_known;
}

static void begin_key(struct contexts *contexts, enum set_kind kind) {
    contexts->declared->form.steps = SEARCH_STEPS;
    contexts->declared->form.is_strange = false;
    bytes_clear(&contexts->key);
    bytes_add_byte(&contexts->key, (char)kind);
}

/* Makes the key of all elements with the name that may be in an element of the set. */
static bool expect(struct contexts *contexts, uint32_t around, const struct event_name *name) {
    bool is_known = true;
    begin_key(contexts, SET_EXPECTED);
    if (around == CONTEXT_START) {
        return add_mentioned(contexts, contexts->declared->form.element_count, name);
    }
    for (uint32_t at = 0; at < contexts_count(contexts, around) && is_known; at++) {
        is_known = add_mentioned(contexts, contexts_member(contexts, around, at), name);
    }
    return is_known;
}

/* Makes the key of all elements with the name. */
static void take_all(struct contexts *contexts, const struct event_name *name) {
    begin_key(contexts, SET_MISPLACED);
    for (uint32_t number = 0; number < contexts->declared->form.element_count; number++) {
        add_element(contexts, number, name);
    }
}

/* Whether it is known what is expected in an element of the set. */
static bool is_known_set(const struct contexts *contexts, uint32_t set) {
    return set == CONTEXT_START || kind_of(contexts, set) == SET_EXPECTED;
}

/* Searches. NO_TEXT: memory ran out, or it takes too long. */
static uint32_t search(struct contexts *contexts, uint32_t around, const struct event_name *name) {
    struct bytes *key = &contexts->key;
    bool is_known = expect(contexts, is_known_set(contexts, around) ? around : CONTEXT_UNKNOWN, name);
    if (is_known && key->length == 1) {
        take_all(contexts, name);
    }
    if (!is_known || key->failed || contexts->declared->form.is_strange) {
        return NO_TEXT;
    }
    return key->length == 1 ? CONTEXT_UNKNOWN : text_table_put(&contexts->sets, (struct span){key->data, key->length});
}

/* The number of a search; it is new if it is the last one. */
static uint32_t number_of(struct contexts *contexts, uint32_t around, const struct event_name *name) {
    struct bytes *key = &contexts->key;
    bytes_clear(key);
    bytes_add(key, &around, sizeof around);
    bytes_add(key, name->local.data, name->local.length);
    bytes_add_byte(key, '\0');
    bytes_add(key, name->uri.data, name->uri.length);
    struct span span = {key->data, key->length};
    bool is_full = contexts->searches.count >= MOST_SEARCHES || contexts->searches.texts.length + key->length > MOST_BYTES;
    if (key->failed || is_full) {
        return key->failed ? NO_TEXT : text_table_find(&contexts->searches, span);
    }
    return text_table_put(&contexts->searches, span);
}

bool contexts_find(struct contexts *contexts, uint32_t around, const struct event_name *name, uint32_t *set, bool *is_misplaced) {
    uint32_t count = contexts->searches.count;
    uint32_t number = number_of(contexts, around, name);
    if (number == NO_TEXT || !items_grow((void **)&contexts->results, number, &contexts->capacity, sizeof *contexts->results)) {
        return false;
    }
    if (number == count) {
        contexts->results[number] = search(contexts, around, name);
    }
    *set = contexts->results[number];
    *is_misplaced = *set != NO_TEXT && !is_known_set(contexts, *set) && is_known_set(contexts, around);
    return *set != NO_TEXT;
}
