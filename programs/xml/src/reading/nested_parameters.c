#include "nested_parameters.h"

#include "entity_text.h"

#include <stdlib.h>
#include <string.h>

/* An entity whose text was put in front. */
struct nested_parameter {
    const xmlChar *name;
    size_t left; /* how much is left of the text that is read once that of the entity has been */
};

static struct span text_of(const xmlEntity *entity) {
    const char *text = entity->content == NULL ? "" : (const char *)entity->content; /* libxml2 had no memory for it */
    return (struct span){text, strlen(text)};
}

static size_t left_of(const xmlParserInput *input) {
    return (size_t)(input->end - input->cur);
}

bool is_nested_parameter(const struct declarations *declarations, const xmlEntity *entity) {
    const xmlParserCtxt *parser = declarations->feed->parser;
    bool is_internal = parser->input->buf == NULL && parser->input->filename == NULL && entity->URI == NULL;
    return parser->inputNr > LEVELS_OF_LIBXML2 && is_internal && entity_text_is_whole(text_of(entity));
}

/* Forgets the entities whose texts have been read. */
static void close_read(struct nested_parameters *nested, const xmlParserInput *input) {
    bool is_same = nested->room != NULL && input->base >= nested->room && input->base <= nested->room + nested->size;
    while (nested->count > 0 && (!is_same || nested->open[nested->count - 1].left > left_of(input))) {
        nested->count--;
        (void)xmlHashRemoveEntry(nested->names, nested->open[nested->count].name, NULL);
    }
}

/* Notes that the text of an entity is read. */
static void open_read(struct declarations *declarations, const xmlEntity *entity, size_t left) {
    struct nested_parameters *nested = &declarations->nested;
    if (nested->count == nested->capacity) {
        size_t capacity = nested->capacity == 0 ? 8 : 2 * nested->capacity;
        struct nested_parameter *open = realloc(nested->open, capacity * sizeof *open);
        if (open == NULL) {
            declarations_out_of_memory(declarations);
            return;
        }
        nested->open = open;
        nested->capacity = capacity;
    }
    nested->names = nested->names == NULL ? xmlHashCreate(0) : nested->names;
    if (nested->names == NULL || xmlHashAddEntry(nested->names, entity->name, declarations) != 0) {
        declarations_out_of_memory(declarations);
        return;
    }
    nested->open[nested->count++] = (struct nested_parameter){entity->name, left};
}

/* Makes room for so many bytes before the text that is read. The old room stays, since libxml2 may still compare with places in it. */
static bool make_room(struct declarations *declarations, xmlParserInputPtr input, size_t more) {
    struct nested_parameters *nested = &declarations->nested;
    bool is_same = nested->room != NULL && input->cur >= nested->room && input->cur <= nested->room + nested->size;
    size_t left = left_of(input);
    if (is_same && (size_t)(input->cur - nested->room) >= more) {
        return true;
    }
    size_t size = 2 * (left + more);
    xmlChar *room = declarations_room(declarations, size + 1);
    if (room == NULL) {
        return false;
    }
    memcpy(room + size - left, input->cur, left);
    room[size] = '\0';
    input->cur = room + size - left;
    input->end = room + size;
    nested->room = room;
    nested->size = size;
    return true;
}

void nest_parameter(struct declarations *declarations, const xmlEntity *entity) {
    struct nested_parameters *nested = &declarations->nested;
    xmlParserInputPtr input = declarations->feed->parser->input;
    struct span text = text_of(entity);
    close_read(nested, input);
    if (nested->names != NULL && xmlHashLookup(nested->names, entity->name) != NULL) {
        fault_set(declarations->feed->fault, FAULT_MALFORMED, declarations_place(declarations), "malformed XML: recursive entity reference");
    } else if (nested->count > 0 && nested->count + LEVELS_OF_LIBXML2 >= declarations_most_levels(declarations)) {
        declarations_refuse_levels(declarations);
    } else if (make_room(declarations, input, text.length + 1)) {
        open_read(declarations, entity, left_of(input));
        input->cur -= text.length + 1;
        memcpy((xmlChar *)input->cur, text.data, text.length);
        ((xmlChar *)input->cur)[text.length] = ' '; /* an external DTD may have names directly behind it (XML 1.0, 4.4.8) */
        declarations_flatten(declarations, (char *)input->cur, text.length);
        input->base = input->cur; /* nothing is before it */
        input->consumed++;        /* libxml2 takes it for an error if nothing is read */
    }
}

void nested_parameters_free(struct nested_parameters *nested) {
    free(nested->open);
    xmlHashFree(nested->names, NULL);
}
