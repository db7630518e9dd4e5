#include "rng_prefixes.h"

#include "xml_names.h"

#include <stdlib.h>

/* Whether both are the same namespace. The one that is inherited is none of the others. */
static bool is_same_uri(struct span one, struct span other) {
    return (one.data == NULL) == (other.data == NULL) && span_equal(one, other);
}

static struct span name_of(const struct rng_prefix *prefix) {
    return (struct span){prefix->name.data, prefix->name.length};
}

static const struct rng_prefix *find(const struct rng_prefixes *prefixes, struct span name) {
    for (size_t at = 0; at < prefixes->count; at++) {
        if (span_equal(name_of(&prefixes->list[at]), name)) {
            return &prefixes->list[at];
        }
    }
    return NULL;
}

static struct span add(struct rng_prefixes *prefixes, struct span uri, struct span name) {
    void *list = prefixes->list;
    struct rng_prefix made = {NO_BYTES, uri};
    bytes_add(&made.name, name.data, name.length);
    prefixes->is_full |= prefixes->count == MOST_PREFIXES;
    bool has_room = !made.name.failed && rng_grow(&list, prefixes->count, &prefixes->capacity, sizeof *prefixes->list);
    prefixes->list = list;
    if (!has_room || prefixes->is_full) {
        prefixes->failed |= !has_room;
        bytes_free(&made.name);
        return (struct span){"p", 1};
    }
    prefixes->list[prefixes->count] = made;
    return name_of(&prefixes->list[prefixes->count++]);
}

/* Adds a prefix of a name that is made: the stem and the first number that is free. */
static struct span make(struct rng_prefixes *prefixes, struct span uri) {
    struct bytes name = NO_BYTES;
    size_t number = prefixes->count > prefixes->number ? prefixes->count : prefixes->number;
    do {
        bytes_clear(&name);
        bytes_format(&name, "%s%zu", prefixes->stem, ++number);
    } while (!name.failed && find(prefixes, (struct span){name.data, name.length}) != NULL);
    prefixes->failed |= name.failed;
    prefixes->number = number;
    struct span made = add(prefixes, uri, (struct span){name.data, name.length});
    bytes_free(&name);
    return made;
}

struct span rng_prefix_for(struct rng_prefixes *prefixes, struct span uri, struct span wanted) {
    for (size_t at = 0; at < prefixes->count && !prefixes->is_full; at++) {
        if (is_same_uri(prefixes->list[at].uri, uri)) {
            return name_of(&prefixes->list[at]);
        }
    }
    if (prefixes->is_full) {
        return (struct span){"p", 1}; /* the schema is refused */
    }
    return wanted.length > 0 && find(prefixes, wanted) == NULL ? add(prefixes, uri, wanted) : make(prefixes, uri);
}

bool rng_prefix_take(struct rng_prefixes *prefixes, struct span uri, struct span name) {
    const struct rng_prefix *found = prefixes->is_full ? NULL : find(prefixes, name);
    if (found != NULL) {
        return is_same_uri(found->uri, uri);
    }
    add(prefixes, uri, name);
    return true;
}

void rng_prefixes_free(struct rng_prefixes *prefixes) {
    for (size_t at = 0; at < prefixes->count; at++) {
        bytes_free(&prefixes->list[at].name);
    }
    free(prefixes->list);
    *prefixes = (struct rng_prefixes){.list = NULL};
}
