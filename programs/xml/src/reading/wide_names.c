#include "wide_names.h"

#include "long_uris.h"
#include "secret.h"
#include "xml_names.h"

#include <stdlib.h>

bool wide_names_open(struct wide_names *names, size_t count) {
    choose_secret(names->secret);
    names->capacity = 64;
    while (names->capacity / 2 < count) {
        names->capacity *= 2;
    }
    names->by_name = calloc(names->capacity, sizeof *names->by_name);
    names->by_expanded = calloc(names->capacity, sizeof *names->by_expanded);
    return names->by_name != NULL && names->by_expanded != NULL;
}

void wide_names_free(struct wide_names *names) {
    free(names->by_name);
    free(names->by_expanded);
}

/* FNV-1a. */
static uint64_t hash_of(struct span text, uint64_t hash) {
    for (size_t at = 0; at < text.length; at++) {
        hash = (hash ^ (unsigned char)text.data[at]) * UINT64_C(0x100000001B3);
    }
    return hash;
}

/* Where the search for a hash begins: numbers at the ends of names change all of its bits. */
static size_t slot_of(const struct wide_names *names, uint64_t hash) {
    hash = (hash ^ hash >> 32) * UINT64_C(0x9E3779B97F4A7C15);
    return (size_t)(hash >> 32 ^ hash) & (names->capacity - 1);
}

static bool is_written_alike(const struct event_name *one, const struct event_name *other) {
    return span_equal(one->local, other->local) && span_equal(one->prefix, other->prefix);
}

/* Whether two names are one. */
static bool is_same(const struct event_name *one, const struct event_name *other) {
    return span_equal(one->local, other->local) && uris_are_same(one->uri, other->uri);
}

/* The number of the attribute in the table that is like this one. It is put in if there is none. */
static size_t found_or_put(const struct wide_names *names, size_t *table, const struct event_attribute *attributes, size_t index, uint64_t hash) {
    const struct event_name *name = &attributes[index].name;
    size_t at = slot_of(names, hash);
    bool is_written = table == names->by_name;
    while (table[at] != 0) {
        const struct event_name *other = &attributes[table[at] - 1].name;
        if (is_written ? is_written_alike(name, other) : is_same(name, other)) {
            return table[at] - 1;
        }
        at = (at + 1) & (names->capacity - 1);
    }
    table[at] = index + 1;
    return index;
}

size_t wide_names_put(struct wide_names *names, const struct event_attribute *attributes, size_t index) {
    const struct event_name *name = &attributes[index].name;
    uint64_t local = hash_of(name->local, names->secret[0]);
    size_t found = found_or_put(names, names->by_name, attributes, index, hash_of(name->prefix, local));
    return found < index || name->uri.length == 0 ? found : found_or_put(names, names->by_expanded, attributes, index, local * (name->uri.length | 1));
}
