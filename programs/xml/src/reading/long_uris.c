#include "long_uris.h"

#include <stdlib.h>

void long_uris_free(struct long_uris *uris) {
    free(uris->places);
    long_names_free(&uris->texts);
}

/* The place in the table for the namespace. */
static struct long_uri *place_of(const struct long_uris *uris, const void *uri) {
    size_t last = uris->capacity - 1;
    size_t at = (size_t)(((uint64_t)(uintptr_t)uri * UINT64_C(0x9E3779B97F4A7C15)) >> 32) & last;
    while (uris->places[at].uri != NULL && uris->places[at].uri != uri) {
        at = (at + 1) & last;
    }
    return &uris->places[at];
}

/* Makes the table twice as large. False: out of memory. */
static bool grow(struct long_uris *uris) {
    struct long_uris larger = *uris;
    larger.capacity = uris->capacity == 0 ? 8 : 2 * uris->capacity;
    larger.places = calloc(larger.capacity, sizeof *larger.places);
    if (larger.places == NULL) {
        return false;
    }
    for (size_t at = 0; at < uris->capacity; at++) {
        if (uris->places[at].uri != NULL) {
            *place_of(&larger, uris->places[at].uri) = uris->places[at];
        }
    }
    free(uris->places);
    *uris = larger;
    return true;
}

const struct span *long_uris_told(const struct long_uris *uris, const void *uri) {
    const struct long_uri *place = uris->count == 0 ? NULL : place_of(uris, uri);
    return place == NULL || place->uri == NULL ? NULL : &place->told;
}

const struct span *long_uris_put(struct long_uris *uris, const void *uri, struct bytes *told) {
    struct span kept;
    bool has_room = 2 * uris->count < uris->capacity || grow(uris);
    if (!has_room || !long_names_keep(&uris->texts, told, &kept)) {
        return NULL;
    }
    struct long_uri *place = place_of(uris, uri);
    uris->count += place->uri == NULL;
    *place = (struct long_uri){uri, kept};
    return &place->told;
}
