#include "attribute_defaults.h"

#include "entity_text.h"

#include <stdlib.h>
#include <string.h>

enum {
    MOST_DEFAULTS = 1000, /* declarations of namespaces by default, or of attributes with a default for one element, unless more is allowed than usual */
    FEW_ELEMENTS = 64     /* with defaults, for which the table of libxml2 is large enough */
};

/* Whether so many defaults are too many. Then the document is refused. libxml2 compares them in pairs for each tag, so there may be fewer than attributes of a
 * tag, unless the user allows more of those than usual. */
static bool are_too_many(struct declarations *declarations, uintptr_t count, const char *what) {
    struct feed *feed = declarations->feed;
    size_t most = feed->most_attributes > USUAL_ATTRIBUTES ? feed->most_attributes : MOST_DEFAULTS;
    if (count > most) {
        feed_refuse(feed, declarations_place(declarations), what, most, feed_raising(feed));
    }
    return count > most;
}

/* Keeps a declaration of a namespace that is there by default. */
static void keep_default(struct declarations *declarations, const xmlChar *element, const xmlChar *name, const xmlChar *value, bool has_tokens) {
    if (are_too_many(declarations, declarations->default_count + 1, "more than %s declarations of namespaces by default")) {
        return;
    }
    if (declarations->default_count == declarations->default_capacity) {
        size_t capacity = declarations->default_capacity == 0 ? 8 : 2 * declarations->default_capacity;
        struct namespace_default *defaults = realloc(declarations->defaults, capacity * sizeof *defaults);
        if (defaults == NULL) {
            declarations_out_of_memory(declarations);
            return;
        }
        declarations->defaults = defaults;
        declarations->default_capacity = capacity;
    }
    struct namespace_default *kept = &declarations->defaults[declarations->default_count++];
    struct bytes whole = NO_BYTES;
    struct bytes unmarked = NO_BYTES;
    const struct left_out *left = &declarations->feed->shortening.left;
    const struct span given = {(const char *)value, strlen((const char *)value)};
    if (has_tokens) {
        left_out_add_tokens(left, given, &whole);
    } else {
        left_out_add(left, given, &whole);
    }
    add_unmarked((struct span){whole.data, whole.length}, &unmarked);
    *kept = (struct namespace_default){strdup((const char *)element), strdup((const char *)name), strdup(bytes_text(&unmarked))};
    bool is_lost = whole.failed || unmarked.failed;
    declarations->feed->defaults += unmarked.length;
    bytes_free(&whole);
    bytes_free(&unmarked);
    if (is_lost || kept->element == NULL || kept->name == NULL || kept->value == NULL) {
        declarations_out_of_memory(declarations);
    }
}

/* Whether the attribute of the element is declared for the first time. Notes that it is. */
static bool is_first(struct declarations *declarations, const xmlChar *element, const xmlChar *name) {
    if (declarations->counts == NULL) {
        declarations->counts = xmlHashCreate(0);
    }
    if (xmlHashLookup2(declarations->counts, element, name) != NULL) {
        return false;
    }
    if (declarations->counts == NULL || xmlHashAddEntry2(declarations->counts, element, name, declarations) != 0) {
        declarations_out_of_memory(declarations);
    }
    return true;
}

/* Adds what is kept of an element to a table. Without memory the table stays without it. */
static void add_kept(void *kept, void *table, const xmlChar *local, const xmlChar *prefix, const xmlChar *unused) {
    (void)unused;
    (void)xmlHashAddEntry2(table, local, prefix, kept);
}

/* Moves the elements that have defaults to a larger table, since libxml2 has them in one that never grows. */
static void grow_table(struct declarations *declarations) {
    xmlParserCtxtPtr parser = declarations->feed->parser;
    int size = xmlHashSize(parser->attsDefault);
    xmlHashTablePtr larger = xmlHashCreateDict(8 * size, parser->dict);
    if (larger != NULL) {
        xmlHashScanFull(parser->attsDefault, add_kept, larger);
    }
    if (larger == NULL || xmlHashSize(larger) != size) {
        xmlHashFree(larger, NULL);
        declarations_out_of_memory(declarations);
        return;
    }
    xmlHashFree(parser->attsDefault, NULL);
    parser->attsDefault = larger;
    declarations->table_size = size;
}

/* Counts the defaults of an element. libxml2 compares each pair of its attributes. */
static void count_default(struct declarations *declarations, const xmlChar *element) {
    uintptr_t count = (uintptr_t)xmlHashLookup(declarations->counts, element) + 1;
    if (xmlHashUpdateEntry(declarations->counts, element, (void *)count, NULL) != 0) {
        declarations_out_of_memory(declarations);
    } else if (!are_too_many(declarations, count, "more than %s declarations of attributes with defaults for one element") &&
               xmlHashSize(declarations->feed->parser->attsDefault) >= 8 * declarations->table_size + FEW_ELEMENTS) {
        grow_table(declarations);
    }
}

void declarations_attribute(struct declarations *declarations, const xmlChar *element, const xmlChar *name, const xmlChar *value, bool has_tokens) {
    declarations_check_behind(declarations);
    declarations_check_name(declarations, element);
    declarations_check_name(declarations, name);
    bool is_namespace = strncmp((const char *)name, "xmlns", 5) == 0 && (name[5] == ':' || name[5] == '\0');
    if (!is_first(declarations, element, name)) {
        return; /* the first declaration counts (XML 1.0, 3.3) */
    }
    if (value != NULL) {
        count_default(declarations, element);
    }
    if (value != NULL && is_namespace) {
        keep_default(declarations, element, name, value, has_tokens);
    }
}
