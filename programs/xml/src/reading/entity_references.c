#include "entity_references.h"

#include "entity_balance.h"
#include "entity_heights.h"
#include "entity_text.h"
#include "including.h"
#include "nested_parameters.h"

#include <libxml/SAX2.h>
#include <libxml/parserInternals.h>
#include <limits.h>
#include <stdlib.h>
#include <string.h>

enum {
    REFERENCE_COST = 256, /* of a reference, in bytes */
    MOST_KNOWN = 64       /* bytes: no namespace that libxml2 knows has more */
};

#ifndef MOST_GIVEN
#define MOST_GIVEN 20000000 /* bytes that libxml2 gets of entities in a value */
#endif

/* Counts what a reference gives. False: entities give too much. */
static bool count_reference(struct declarations *declarations, const xmlEntity *entity) {
    /* libxml2 passes all open namespaces to the parser of the entity */
    uint64_t namespaces = (uint64_t)declarations->feed->parser->nsNr;
    if (!declarations_count(declarations, REFERENCE_COST + 8 * namespaces + declarations_text(declarations, entity).length)) {
        declarations_refuse_part(declarations, "entities give more than 100 times the document's length, and more than %s bytes");
        return false;
    }
    if (feed_is_over(declarations->feed)) {
        feed_check_memory(declarations->feed, declarations_place(declarations));
        return false;
    }
    return true;
}

/* Whether an entity gives text alone, and the reference is in the content of the document itself. Such an entity needs no parser of its own. */
static bool is_plain(const struct declarations *declarations, const char *text) {
    const struct feed *feed = declarations->feed;
    return !is_in_entity(feed) && feed->parser->instate == XML_PARSER_CONTENT && strpbrk(text, "<&") == NULL && strstr(text, "]]>") == NULL;
}

static bool open_none(void *context, struct span name, bool is_in_value, struct span *text) {
    (void)context;
    (void)name;
    (void)is_in_value;
    (void)text;
    return false;
}

static void close_none(void *context) {
    (void)context;
}

/* The external entity with its text. NULL: it is not read, and there is a fault. */
static xmlEntityPtr external_of(struct declarations *declarations, xmlEntityPtr entity) {
    if (loads_external(declarations)) {
        return declarations_loaded(declarations, entity, XML_INTERNAL_GENERAL_ENTITY);
    }
    fault_set(declarations->feed->fault, FAULT_OUTSIDE, declarations_place(declarations), "external entity '%s' is not loaded: outside the profile",
              plain(entity->SystemID));
    return NULL;
}

/* The twins of an entity. NULL: out of memory. */
static struct twin *twins_of(struct declarations *declarations, xmlEntityPtr entity) {
    if (entity->_private == NULL) {
        entity->_private = declarations_twin(declarations);
    }
    return entity->_private;
}

/* Notes that the text of an entity is being put somewhere. */
static void open_twin(struct declarations *declarations, struct twin *twin) {
    twin->outer = declarations->open;
    twin->is_open = true;
    declarations->open = twin;
    declarations->open_count++;
}

static void close_twin(void *context) {
    struct declarations *declarations = context;
    declarations->open->is_open = false;
    declarations->open = declarations->open->outer;
    declarations->open_count--;
}

/* Whether the text of an entity may be put somewhere, and is not being put there. */
static bool may_be_put(struct declarations *declarations, xmlEntityPtr entity, bool is_in_value) {
    if (entity == NULL || entity->etype != XML_INTERNAL_GENERAL_ENTITY || entity->content == NULL || entity->_private == entity) {
        return false;
    }
    struct twin *twin = twins_of(declarations, entity);
    if (twin == NULL || twin->is_open) {
        return false;
    }
    if (!is_in_value && twin->balance == BALANCE_UNKNOWN) {
        twin->balance = entity_is_balanced(declarations_text(declarations, entity)) ? BALANCED : UNBALANCED;
    }
    return is_in_value || twin->balance == BALANCED;
}

/* What is read for an entity that is not declared, if it may be declared nowhere: nothing, unless what is not read may declare it. */
static xmlEntityPtr undeclared(struct declarations *declarations, const xmlChar *name) {
    const xmlParserCtxt *parser = declarations->feed->parser;
    bool is_all_read = !declarations->is_unread && (!parser->hasExternalSubset || loads_external(declarations));
    if (declarations->feed->fault->kind != FAULT_NONE || declarations_are_all(declarations) || !is_all_read) {
        return NULL;
    }
    if (!declarations->has_skipped) {
        declarations_note(declarations, declarations_place(declarations), "entity '%s' is not declared: it is read as nothing", name);
    }
    declarations->has_skipped = true;
    return count_reference(declarations, &declarations->skipped) ? &declarations->skipped : NULL;
}

/* The entity of a reference in a value, also one that is not declared and gives nothing. NULL: there is none. */
static xmlEntityPtr in_value(struct declarations *declarations, struct span name) {
    const xmlParserCtxt *parser = declarations->feed->parser;
    xmlEntityPtr entity = declarations_entity_of(declarations, name);
    struct bytes written = NO_BYTES;
    bool are_all_read = parser->inSubset == 0 || parser->instate == XML_PARSER_ATTRIBUTE_VALUE; /* the declarations before the reference */
    if (entity == NULL && are_all_read) {
        bytes_add(&written, name.data, name.length);
        entity = undeclared(declarations, (const xmlChar *)bytes_text(&written));
    }
    if (written.failed) {
        declarations_out_of_memory(declarations);
    }
    bytes_free(&written);
    return entity;
}

/* Gives the text of an entity that is to be put in the place of a reference. A reference that stays is left to libxml2, which finds out why. */
static bool give_text(void *context, struct span name, bool is_in_value, struct span *text) {
    struct declarations *declarations = context;
    if (declarations->feed->fault->kind != FAULT_NONE || (!is_in_value && !declarations->fills_content)) {
        return false;
    }
    xmlEntityPtr entity = is_in_value ? in_value(declarations, name) : declarations_entity_of(declarations, name);
    if (is_in_value && entity != NULL && entity->etype == XML_EXTERNAL_GENERAL_PARSED_ENTITY) {
        fault_set(declarations->feed->fault, FAULT_MALFORMED, declarations_place(declarations),
                  "malformed XML: external entity '%s' in the value of an attribute", plain(entity->name));
        return false;
    }
    if (!may_be_put(declarations, entity, is_in_value) || !count_reference(declarations, entity)) {
        return false;
    }
    *text = declarations_text(declarations, entity);
    declarations_count_written(declarations, text->length);
    if (declarations->open_count > declarations_most_levels(declarations)) {
        declarations_refuse_levels(declarations);
    }
    open_twin(declarations, entity->_private);
    return true;
}

/* A twin of a general entity with the text. NULL: there is a fault. */
static struct twin *copy_of(struct declarations *declarations, const xmlEntity *entity, struct bytes *text) {
    struct twin *twin = declarations_twin(declarations);
    declarations->written += text->length;
    if (text->length > INT_MAX) {
        declarations_refuse(declarations, "over a limit of this program: an entity has more than 2,147,483,647 bytes");
    }
    if (twin == NULL || declarations->feed->fault->kind != FAULT_NONE) {
        return NULL;
    }
    twin->entity = *entity;
    twin->entity.orig = NULL;
    twin->entity.checked = 0;
    twin->entity._private = NULL;
    twin->entity.length = (int)text->length;
    twin->entity.content = (xmlChar *)strdup(bytes_text(text));
    twin->entity.URI = entity->URI == NULL ? NULL : (xmlChar *)strdup(plain(entity->URI));
    if (text->failed || twin->entity.content == NULL) {
        declarations_out_of_memory(declarations);
    }
    return declarations->feed->fault->kind == FAULT_NONE ? twin : NULL;
}

/* The text of an entity for libxml2, with the texts of others in the place of references. */
static void write_text(struct declarations *declarations, xmlEntityPtr entity, bool is_in_value, struct bytes *text) {
    const struct entity_source source = {give_text, close_twin, declarations};
    open_twin(declarations, entity->_private);
    if (is_in_value) {
        entity_text_value(declarations_text(declarations, entity), &source, text);
    } else {
        entity_text_content(declarations_text(declarations, entity), &source, text);
    }
    close_twin(declarations);
}

/* Adds what the entity gives in the value of an attribute of the document itself. False: it may not be there, or is left to libxml2. */
static bool add_value(struct declarations *declarations, xmlEntityPtr entity, struct bytes *to) {
    struct bytes text = NO_BYTES;
    if (!may_be_put(declarations, entity, true)) {
        return false;
    }
    write_text(declarations, entity, true, &text);
    bool is_added = !text.failed && entity_text_decoded((struct span){text.data, text.length}, to);
    if (text.failed || to->failed) {
        declarations_out_of_memory(declarations);
    }
    bytes_free(&text);
    return is_added && declarations->feed->fault->kind == FAULT_NONE;
}

size_t declarations_expand(struct declarations *declarations, struct span text, struct bytes *to) {
    struct span name;
    struct span rest = text;
    if (!entity_text_next(&rest, &name) || name.data != text.data + 1) {
        return 0;
    }
    xmlEntityPtr entity = in_value(declarations, name);
    bool is_one = entity != NULL && entity->etype == XML_INTERNAL_GENERAL_ENTITY && count_reference(declarations, entity);
    return is_one && add_value(declarations, entity, to) ? name.length + strlen("&;") : 0;
}

/* Whether entities have given so much of the value that libxml2 reads that it is not to get the whole text of another one. */
static bool has_given_enough(struct declarations *declarations, const xmlEntity *entity) {
    uint64_t markup = declarations->feed->next;
    if (declarations->value_at != markup) {
        declarations->value_at = markup;
        declarations->given = 0;
    }
    struct span text = declarations_text(declarations, entity);
    declarations->given += text.length;
    bool is_short = text.length <= MOST_KNOWN && memchr(text.data, '&', text.length) == NULL;
    return (declarations->given > MOST_GIVEN || text.length > LONGEST_ENTITY) && !is_short;
}

/* An entity with a mark in the place of what the entity gives in a value. The entity itself: it may not be there, or gives little. libxml2 gets that, since a
 * namespace may be one that it knows, or no text. */
static xmlEntityPtr left_out(struct declarations *declarations, xmlEntityPtr entity) {
    struct shortening *shortening = &declarations->feed->shortening;
    struct bytes text = NO_BYTES;
    bool is_lasting = declarations->feed->parser->inSubset != 0;
    bool is_long = add_value(declarations, entity, &text) && text.length > MOST_KNOWN;
    if (!is_long) {
        bytes_free(&text);
        return entity;
    }
    if (!left_out_put(&shortening->left, is_lasting, &text, declarations->mark)) {
        declarations_out_of_memory(declarations);
        bytes_free(&text);
        return NULL;
    }
    declarations->feed->shortened(declarations->feed->context);
    declarations->marked.content = (xmlChar *)declarations->mark;
    declarations->marked.length = LEFT_OUT_MARK;
    return &declarations->marked;
}

/* The twin of an entity for content. It is made once. NULL: there is a fault. */
static struct twin *written_of(struct declarations *declarations, xmlEntityPtr entity, bool is_tall) {
    struct bytes text = NO_BYTES;
    struct twin *twins = twins_of(declarations, entity);
    if (twins != NULL && twins->written == NULL) {
        declarations->fills_content = is_tall;
        write_text(declarations, entity, false, &text);
        twins->written = copy_of(declarations, entity, &text);
    }
    bytes_free(&text);
    return twins == NULL ? NULL : twins->written;
}

/* The same with marks, for the value of an attribute of the document itself. */
static struct twin *marked_of(struct declarations *declarations, xmlEntityPtr entity, bool is_tall) {
    struct bytes text = NO_BYTES;
    struct bytes marked = NO_BYTES;
    struct twin *twins = twins_of(declarations, entity);
    if (twins != NULL && twins->marked == NULL) {
        if (is_tall) {
            write_text(declarations, entity, true, &text);
        }
        entity_text_marked(is_tall ? (struct span){text.data, text.length} : declarations_text(declarations, entity), &marked);
        marked.failed |= text.failed;
        twins->marked = copy_of(declarations, entity, &marked);
    }
    declarations->has_marks = true;
    bytes_free(&text);
    bytes_free(&marked);
    return twins == NULL ? NULL : twins->marked;
}

/* The entity with the text that libxml2 has to get. If it is tall, the texts of others have to be in it. NULL: there is a fault. */
static xmlEntityPtr rewritten(struct declarations *declarations, xmlEntityPtr entity, bool is_in_value, bool is_tall) {
    const struct span text = declarations_text(declarations, entity);
    bool has_references = memchr(text.data, '<', text.length) != NULL && memchr(text.data, '&', text.length) != NULL;
    bool has_return = memchr(text.data, '\r', text.length) != NULL;
    bool is_for_content = has_return || (has_references && (declarations->has_blank_references || loads_external(declarations)));
    struct twin *twin = NULL;
    if (is_in_value && (is_tall || has_blank_reference(text))) {
        twin = marked_of(declarations, entity, is_tall);
    } else if (!is_in_value && (is_tall || is_for_content)) {
        twin = written_of(declarations, entity, is_tall);
    } else {
        return entity;
    }
    return twin == NULL || !count_reference(declarations, &twin->entity) ? NULL : &twin->entity;
}

/* Whether more entities are in one another in an entity than libxml2 reads. If they are more than is allowed, there is a fault. */
static bool is_tall(struct declarations *declarations, const xmlEntity *entity) {
    if (declarations->referring <= LEVELS_OF_LIBXML2) {
        return false;
    }
    size_t height = entity_height(declarations, entity);
    if (height > declarations_most_levels(declarations)) {
        declarations_refuse_levels(declarations);
    }
    return height > LEVELS_OF_LIBXML2;
}

/* An entity that gives nothing in content. */
static xmlEntityPtr nothing(struct declarations *declarations) {
    declarations->plain.content = (xmlChar *)declarations->plain.name;
    return &declarations->plain;
}

/* Whether libxml2 reads an entity in content as it reads the document: a long one, or one that may refer to one. */
static bool is_to_include(const struct declarations *declarations, const xmlEntity *entity) {
    struct span name;
    struct span text = declarations_text(declarations, entity);
    return declarations->has_long && (declarations_is_long(declarations, entity) || entity_text_next(&text, &name));
}

/* Whether the entity may be included where libxml2 is. Else there is a fault. */
static bool may_include(struct declarations *declarations, const xmlEntity *entity) {
    const struct feed *feed = declarations->feed;
    if (!feed_is_read(feed)) {
        declarations_refuse(declarations, "over a limit of this program: a long entity in an external one");
    } else if (is_included(&feed->inclusions, entity)) {
        fault_set(feed->fault, FAULT_MALFORMED, declarations_place(declarations), "malformed XML: recursive entity reference");
    } else if (feed->inclusions.count >= declarations_most_levels(declarations)) {
        declarations_refuse_levels(declarations);
    }
    return feed->fault->kind == FAULT_NONE;
}

/* Includes an entity in content. Returns what libxml2 gets in its place. */
static xmlEntityPtr include(struct declarations *declarations, xmlEntityPtr entity) {
    static const struct entity_source no_source = {open_none, close_none, NULL};
    struct span text = declarations_text(declarations, entity);
    struct bytes own = NO_BYTES;
    if (!may_include(declarations, entity)) {
        return NULL;
    }
    if (memchr(text.data, '\r', text.length) != NULL) {
        entity_text_content(text, &no_source, &own);
        text = (struct span){own.data, own.length};
    }
    feed_include(declarations->feed, entity, text, &own);
    return nothing(declarations);
}

/* Includes the text of a tall entity in content, with the texts of others in it, if that is long. NULL: it is not, and is kept for libxml2. */
static xmlEntityPtr include_tall(struct declarations *declarations, xmlEntityPtr entity) {
    struct bytes text = NO_BYTES;
    struct twin *twins = twins_of(declarations, entity);
    bool is_open = is_included(&declarations->feed->inclusions, entity); /* it is in itself, and libxml2 finds that out */
    bool may_be_long = twins != NULL && twins->written == NULL && feed_is_read(declarations->feed) && !is_open;
    if (may_be_long) {
        declarations->fills_content = true;
        write_text(declarations, entity, false, &text);
    }
    bool is_included = text.length > LONGEST_ENTITY && !text.failed && declarations->feed->fault->kind == FAULT_NONE;
    if (is_included) {
        feed_include(declarations->feed, entity, (struct span){text.data, text.length}, &text);
    } else if (may_be_long) {
        twins->written = copy_of(declarations, entity, &text);
    }
    bytes_free(&text);
    return is_included ? nothing(declarations) : NULL;
}

/* What libxml2 gets for an entity with text. */
static xmlEntityPtr given_for(struct declarations *declarations, xmlEntityPtr entity, bool is_in_value) {
    const struct feed *feed = declarations->feed;
    bool has_many = is_tall(declarations, entity);
    if (feed->fault->kind != FAULT_NONE) {
        return NULL;
    }
    if (!is_in_value && is_to_include(declarations, entity)) {
        return include(declarations, entity);
    }
    xmlEntityPtr included = !is_in_value && has_many ? include_tall(declarations, entity) : NULL;
    if (included != NULL) {
        return included;
    }
    if (is_plain(declarations, (const char *)entity->content)) {
        declarations->plain.content = entity->content;
        return &declarations->plain;
    }
    if (is_in_value && has_given_enough(declarations, entity)) {
        xmlEntityPtr shortened = left_out(declarations, entity);
        if (shortened != entity) {
            return shortened;
        }
    }
    bool is_written = has_many || declarations_is_long(declarations, entity);
    return feed->fault->kind == FAULT_NONE ? rewritten(declarations, entity, is_in_value, is_written) : NULL;
}

/* What libxml2 gets for the secret name behind the text of an entity. */
static xmlEntityPtr end_of_text(struct declarations *declarations) {
    struct feed *feed = declarations->feed;
    if (feed->parser->instate == XML_PARSER_CONTENT) {
        feed_end_inclusion(feed);
    } else {
        feed_refuse_unbalanced(feed);
    }
    return feed->fault->kind == FAULT_NONE ? nothing(declarations) : NULL;
}

xmlEntityPtr declarations_general(struct declarations *declarations, const xmlChar *name) {
    const struct feed *feed = declarations->feed;
    if (is_end_name(&feed->inclusions, plain(name))) {
        return end_of_text(declarations);
    }
    bool is_in_value = feed->parser->instate == XML_PARSER_ATTRIBUTE_VALUE;
    bool is_reference = is_in_value || feed->parser->instate == XML_PARSER_CONTENT; /* libxml2 also asks for an entity that it has just declared */
    xmlEntityPtr entity = feed->fault->kind == FAULT_NONE ? xmlSAX2GetEntity(feed->parser, name) : NULL;
    if (!is_reference) {
        return entity;
    }
    if (entity == NULL) {
        return undeclared(declarations, name);
    }
    if (entity->_private == entity) {
        fault_set(feed->fault, FAULT_MALFORMED, declarations_place(declarations),
                  "malformed XML: entity '%s' is declared in a parameter entity, and the document stands alone", plain(name));
        return NULL;
    }
    if (entity->etype == XML_EXTERNAL_GENERAL_PARSED_ENTITY && !is_in_value) {
        entity = external_of(declarations, entity);
    }
    if (entity == NULL || !count_reference(declarations, entity)) {
        return NULL;
    }
    if (entity->etype != XML_INTERNAL_GENERAL_ENTITY || entity->content == NULL) {
        return entity;
    }
    return given_for(declarations, entity, is_in_value);
}

/* Whether a step of libxml2 may end with a reference. It may if a declaration or the beginning of the subset is before it. Behind another reference, and at the
 * beginning of an entity, it is among the blanks of the next step, as any number of references may be. */
static bool may_end_step(const struct feed *feed, const xmlChar *name) {
    const xmlParserCtxt *parser = feed->parser;
    const xmlParserInput *input = parser->input;
    size_t length = strlen("%;") + strlen((const char *)name);
    if (parser->depth > 0) {
        return false; /* in the value of an entity */
    }
    const xmlChar *at = (size_t)(input->cur - input->base) > length ? input->cur - length : input->base;
    while (at > input->base && strchr(" \t\n\r", at[-1]) != NULL) {
        at--;
    }
    if (at > input->base) {
        return at[-1] == '>' || at[-1] == '[';
    }
    return parser->inputNr == 1 && input->consumed != feed->taken_back;
}

/* An entity without text. */
static xmlEntityPtr empty(struct declarations *declarations) {
    declarations->nothing.content = &declarations->ends[declarations->is_second];
    return &declarations->nothing;
}

/* A copy of a parameter entity with shallow models. NULL, or without text: out of memory. */
static struct twin *shallow_of(struct declarations *declarations, const xmlEntity *entity) {
    struct twin *twin = declarations_twin(declarations);
    if (twin == NULL) {
        return NULL;
    }
    twin->entity = *entity;
    twin->entity.orig = NULL;
    twin->entity._private = NULL;
    twin->entity.content = (xmlChar *)strdup(plain(entity->content));
    twin->entity.URI = entity->URI == NULL ? NULL : (xmlChar *)strdup(plain(entity->URI));
    if (twin->entity.content == NULL) {
        declarations_out_of_memory(declarations);
    } else {
        declarations_flatten_twin(declarations, twin);
    }
    return twin;
}

/* The copy of a parameter entity. It is made once, and a second one if it is not as the entity. */
static struct twin *second_of(struct declarations *declarations, xmlEntityPtr entity) {
    if (entity->_private == NULL) {
        struct twin *twin = shallow_of(declarations, entity);
        bool is_changed = twin != NULL && twin->entity.content != NULL && strcmp(plain(twin->entity.content), plain(entity->content)) != 0;
        entity->_private = twin;
        if (is_changed) {
            twin->shallow = shallow_of(declarations, entity);
        }
    }
    return entity->_private;
}

/* The entity or its twin, in turn. Between declarations blanks alone are nothing. A step ends at the beginning of a text, or at a declaration in it, which is
 * read once for each reference. */
static xmlEntityPtr in_turn(struct declarations *declarations, xmlEntityPtr entity) {
    const char *text = plain(entity->content);
    if (text[strspn(text, " \t\n\r")] == '\0') {
        return empty(declarations);
    }
    struct twin *twin = second_of(declarations, entity);
    if (twin == NULL) {
        return entity;
    }
    bool is_next = strchr(text, '<') == NULL ? declarations->is_second : !twin->is_next;
    xmlEntityPtr first = twin->shallow == NULL ? entity : &twin->shallow->entity;
    twin->is_next = is_next && twin->entity.content != NULL;
    return twin->is_next ? &twin->entity : first;
}

/* The same as is_to_include, for a parameter entity. */
static bool is_parameter_to_include(const struct declarations *declarations, const xmlEntity *entity) {
    struct span text = declarations_text(declarations, entity);
    bool may_refer = feed_is_read(declarations->feed) && memchr(text.data, '%', text.length) != NULL;
    return declarations->has_long_parameter && (may_refer || declarations_is_long(declarations, entity));
}

static void include_parameter(struct declarations *declarations, const xmlEntity *entity) {
    struct bytes own = NO_BYTES;
    if (may_include(declarations, entity)) {
        feed_include(declarations->feed, entity, declarations_text(declarations, entity), &own);
    }
}

/* What libxml2 is to read for an internal parameter entity. */
static xmlEntityPtr internal(struct declarations *declarations, xmlEntityPtr entity) {
    if (!count_reference(declarations, entity)) {
        return empty(declarations);
    }
    if (is_parameter_to_include(declarations, entity)) {
        include_parameter(declarations, entity);
        return empty(declarations);
    }
    if (declarations->feed->parser->depth > 0) {
        return entity; /* the value of an entity has the text as it is */
    }
    if (is_nested_parameter(declarations, entity)) {
        nest_parameter(declarations, entity);
        return empty(declarations);
    }
    return in_turn(declarations, entity);
}

/* Whether libxml2 asks for a parameter entity that it has just declared, and reads no reference. */
static bool is_after_declaration(const xmlParserCtxt *parser) {
    const xmlParserInput *input = parser->input;
    return parser->depth == 0 && input != NULL && input->cur > input->base && input->cur[-1] == '>';
}

/* Whether a reference is inside a declaration, which the internal subset may not have (WFC: PEs in Internal Subset). Some programs read one in the text of
 * a parameter entity, as libxml2 does. */
static bool is_in_declaration(struct declarations *declarations) {
    const struct feed *feed = declarations->feed;
    const xmlParserCtxt *parser = feed->parser;
    bool is_external = feed->is_away || (parser->inputNr > 1 && parser->input->filename != NULL);
    if (is_external) {
        return false; /* there it may be */
    }
    if (parser->depth > 0) {
        return true; /* in the value of an entity */
    }
    const xmlChar *at = parser->input->cur;
    while (parser->inputNr > 1 && at > parser->input->base && at[-1] != '<' && at[-1] != '>') {
        at--;
    }
    declarations->expanded += (uint64_t)(parser->input->cur - at); /* what the search costs */
    return parser->inputNr > 1 && at > parser->input->base && at[-1] == '<';
}

/* Notes whether the reference that libxml2 has read is between declarations, as those around it are then. */
static void note_between(struct declarations *declarations) {
    const xmlParserCtxt *parser = declarations->feed->parser;
    size_t level = (size_t)parser->inputNr;
    const xmlChar *at = parser->input->cur;
    while (at > parser->input->base && strchr("<>[", at[-1]) == NULL) {
        at--;
    }
    declarations->expanded += (uint64_t)(parser->input->cur - at); /* what the search costs */
    bool is_between = at > parser->input->base ? at[-1] != '<' : level <= declarations->between;
    if (is_between) {
        declarations->between = level + 1;
    } else if (declarations->between > level) {
        declarations->between = level;
    }
}

/* Notes that a parameter entity is not read. One that is declared nowhere has nothing, unless one that was not read before it may declare it. */
static void note_unread(struct declarations *declarations, const xmlEntity *entity, const xmlChar *name) {
    struct place place = declarations_parameter_place(declarations);
    if (entity != NULL) {
        declarations_note(declarations, place, "the parameter entity '%s' is not loaded: its entities and attribute defaults are not there", entity->SystemID);
    } else {
        declarations_note(declarations, place, "the parameter entity '%s' is not declared: it is read as nothing", name);
    }
    declarations->is_unread |= entity != NULL;
}

xmlEntityPtr declarations_parameter(struct declarations *declarations, const xmlChar *name) {
    const struct feed *feed = declarations->feed;
    if (feed->fault->kind != FAULT_NONE) {
        return empty(declarations);
    }
    if (is_end_name(&feed->inclusions, plain(name))) {
        declarations->is_second ^= may_end_step(feed, name);
        feed_end_inclusion(declarations->feed);
        return empty(declarations);
    }
    xmlEntityPtr entity = xmlSAX2GetParameterEntity(feed->parser, name);
    if (is_after_declaration(feed->parser)) {
        return entity;
    }
    declarations->is_second ^= may_end_step(feed, name);
    if (feed->parser->depth == 0) {
        note_between(declarations);
    }
    if (declarations->has_dropped) {
        declarations_refuse(declarations, "a reference behind a parameter entity whose system identifier is no URI: outside the profile");
    }
    if (entity != NULL && entity->etype == XML_EXTERNAL_PARAMETER_ENTITY && loads_external(declarations)) {
        entity = declarations_loaded(declarations, entity, XML_INTERNAL_PARAMETER_ENTITY);
        if (entity == NULL) {
            return empty(declarations);
        }
    }
    bool is_external = entity != NULL && entity->etype == XML_EXTERNAL_PARAMETER_ENTITY;
    if (!is_external && is_in_declaration(declarations)) {
        declarations_refuse(declarations, "a parameter entity inside a declaration: outside the profile");
    }
    if (entity != NULL && !is_external) {
        return internal(declarations, entity);
    }
    note_unread(declarations, entity, name);
    return empty(declarations);
}
