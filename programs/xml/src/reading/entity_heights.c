#include "entity_heights.h"

#include "entity_text.h"

#include <stdlib.h>

/* An entity whose text is being read. */
struct visit {
    const xmlEntity *entity;
    struct span rest;
    uintptr_t height; /* of what was read */
};

/* Entities that are in one another, the innermost last. */
struct visits {
    struct declarations *declarations;
    struct visit *visits;
    size_t count;
    size_t capacity;
};

/* What is known of an entity: 0, or its height and one more. 1 also if its text is being read. */
static uintptr_t known_of(const struct visits *visits, const xmlEntity *entity) {
    return (uintptr_t)xmlHashLookup(visits->declarations->heights, entity->name);
}

/* Notes what is known. Only a first entry makes the table of libxml2 larger, so it is one of its own. */
static void know(struct visits *visits, const xmlEntity *entity, uintptr_t known) {
    xmlHashTablePtr heights = visits->declarations->heights;
    int failed = known == 1 && known_of(visits, entity) == 0 ? xmlHashAddEntry(heights, entity->name, (void *)known)
                                                             : xmlHashUpdateEntry(heights, entity->name, (void *)known, NULL);
    if (failed != 0) {
        declarations_out_of_memory(visits->declarations);
    }
}

/* Begins to read the text of an entity. */
static void enter(struct visits *visits, const xmlEntity *entity) {
    if (visits->count == visits->capacity) {
        size_t capacity = visits->capacity == 0 ? 8 : 2 * visits->capacity;
        struct visit *more = realloc(visits->visits, capacity * sizeof *more);
        if (more == NULL) {
            declarations_out_of_memory(visits->declarations);
            return;
        }
        visits->visits = more;
        visits->capacity = capacity;
    }
    visits->visits[visits->count++] = (struct visit){entity, declarations_text(visits->declarations, entity), 0};
    know(visits, entity, 1);
}

/* The text that is being read has an entity of this height and one more. */
static void raise(struct visits *visits, uintptr_t known) {
    if (visits->count > 0 && visits->visits[visits->count - 1].height < known) {
        visits->visits[visits->count - 1].height = known;
    }
}

/* Reads on, up to the next reference or the end of a text. */
static void step(struct visits *visits) {
    struct visit *last = &visits->visits[visits->count - 1];
    struct span name;
    if (!entity_text_next(&last->rest, &name)) {
        know(visits, last->entity, last->height + 1);
        visits->count--;
        raise(visits, last->height + 1);
        return;
    }
    const xmlEntity *inner = declarations_entity_of(visits->declarations, name);
    bool is_text = inner != NULL && inner->etype == XML_INTERNAL_GENERAL_ENTITY && inner->content != NULL;
    uintptr_t known = is_text ? known_of(visits, inner) : 0;
    if (known > 0) {
        raise(visits, known);
    } else if (is_text) {
        enter(visits, inner);
    }
}

size_t entity_height(struct declarations *declarations, const xmlEntity *entity) {
    struct visits visits = {declarations, NULL, 0, 0};
    if (declarations->heights == NULL) {
        declarations->heights = xmlHashCreate(0);
    }
    if (declarations->heights == NULL) {
        declarations_out_of_memory(declarations);
        return 0;
    }
    if (known_of(&visits, entity) == 0) {
        enter(&visits, entity);
    }
    while (visits.count > 0 && declarations->feed->fault->kind == FAULT_NONE) {
        step(&visits);
    }
    uintptr_t known = known_of(&visits, entity);
    free(visits.visits);
    return known == 0 ? 0 : known - 1;
}
