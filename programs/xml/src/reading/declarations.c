#include "declarations.h"

#include "entity_text.h"
#include "external.h"
#include "nested_parameters.h"
#include "parser_memory.h"
#include "xml_names.h"

#include <libxml/SAX2.h>
#include <libxml/parserInternals.h>
#include <libxml/uri.h>
#include <stdlib.h>
#include <string.h>

enum {
    PARTS_OF_MEMORY = 8 /* into which the memory for a document is divided: texts that are written for libxml2, and external entities, have one each */
};

void declarations_open(struct declarations *declarations, struct feed *feed, const struct event_sink *sink) {
    static xmlChar no_name[] = "";
    memset(declarations, 0, sizeof *declarations);
    declarations->feed = feed;
    declarations->sink = sink;
    declarations->between = 1;
    declarations->nothing.type = XML_ENTITY_DECL;
    declarations->nothing.etype = XML_INTERNAL_PARAMETER_ENTITY;
    declarations->nothing.name = no_name;
    declarations->plain.type = XML_ENTITY_DECL;
    declarations->plain.etype = XML_INTERNAL_PREDEFINED_ENTITY;
    declarations->plain.name = no_name;
    declarations->nothing.content = no_name;
    declarations->skipped.type = XML_ENTITY_DECL;
    declarations->skipped.etype = XML_INTERNAL_GENERAL_ENTITY;
    declarations->skipped.name = no_name;
    declarations->skipped.content = no_name;
    declarations->marked = declarations->skipped;
}

void declarations_free(struct declarations *declarations) {
    while (declarations->twins != NULL) {
        struct twin *twin = declarations->twins;
        declarations->twins = twin->before;
        free(twin->entity.content);
        free((char *)twin->entity.URI);
        free(twin);
    }
    for (size_t at = 0; at < declarations->default_count; at++) {
        free(declarations->defaults[at].element);
        free(declarations->defaults[at].name);
        free(declarations->defaults[at].value);
    }
    free(declarations->defaults);
    xmlFree(declarations->nothing.orig); /* libxml2 has put a literal there if it asked for an entity that it had just declared after a fault */
    xmlHashFree(declarations->counts, NULL);
    xmlHashFree(declarations->heights, NULL);
    nested_parameters_free(&declarations->nested);
}

bool is_in_entity(const struct feed *feed) {
    bool is_in_parameter = feed->inclusions.count > 0 && feed->parser->inSubset != 0;
    return feed->parser->depth > 0 || feed->parser->inputNr > 1 || feed->is_away || is_in_parameter;
}

/* The text of a long entity; NULL: it is not long. */
static const struct bytes *long_text(const struct declarations *declarations, const xmlEntity *entity) {
    bool may_be = (declarations->has_long || declarations->has_long_parameter) && entity->content != NULL && entity->length == LEFT_OUT_MARK;
    return may_be ? left_out_part(&declarations->feed->shortening.left, (struct span){plain(entity->content), LEFT_OUT_MARK}) : NULL;
}

struct span declarations_text(const struct declarations *declarations, const xmlEntity *entity) {
    const struct bytes *text = long_text(declarations, entity);
    return text != NULL ? (struct span){text->data, text->length} : (struct span){plain(entity->content), entity->length > 0 ? (size_t)entity->length : 0};
}

bool declarations_is_long(const struct declarations *declarations, const xmlEntity *entity) {
    return long_text(declarations, entity) != NULL;
}

void declarations_keep_long(struct declarations *declarations, bool is_parameter, struct bytes *text, char mark[LEFT_OUT_MARK + 1]) {
    if (!left_out_put(&declarations->feed->shortening.left, true, text, mark)) {
        declarations_out_of_memory(declarations);
    }
    declarations->has_long |= !is_parameter;
    declarations->has_long_parameter |= is_parameter;
}

bool declarations_is_inside(const struct declarations *declarations) {
    return (size_t)declarations->feed->parser->inputNr > declarations->between;
}

bool loads_external(const struct declarations *declarations) {
    return declarations->feed->source->beside != NULL;
}

struct place declarations_place(struct declarations *declarations) {
    struct feed *feed = declarations->feed;
    uint64_t offset = feed_offset(feed);
    if (feed->is_away) {
        return declarations->doctype;
    }
    if (feed->parser->inputNr > 1) {
        return feed_place(feed, feed_last(feed, offset, "%"));
    }
    return feed_place(feed, feed_last(feed, offset, feed->parser->instate == XML_PARSER_CONTENT ? "&" : "<"));
}

struct place declarations_parameter_place(struct declarations *declarations) {
    struct feed *feed = declarations->feed;
    return feed->is_away ? declarations->doctype : feed_place(feed, feed_last(feed, feed_offset(feed), "%"));
}

void declarations_refuse(struct declarations *declarations, const char *what) {
    fault_set(declarations->feed->fault, FAULT_OUTSIDE, declarations_place(declarations), "%s", what);
}

void declarations_out_of_memory(struct declarations *declarations) {
    fault_set(declarations->feed->fault, FAULT_MEMORY, (struct place){0, 0}, "out of memory");
}

static bool is_alone(const struct declarations *declarations) {
    return declarations->feed->parser->standalone == 1;
}

bool declarations_are_all(const struct declarations *declarations) {
    const xmlParserCtxt *parser = declarations->feed->parser;
    return is_alone(declarations) || (!parser->hasExternalSubset && !parser->hasPErefs && !declarations->is_unread);
}

void declarations_note(struct declarations *declarations, struct place place, const char *what, const xmlChar *name) {
    struct bytes line = NO_BYTES;
    bytes_format(&line, what, plain(name));
    shorten_words(&line);
    const char *note = bytes_text(&line);
    if (line.failed) {
        declarations_out_of_memory(declarations);
    } else {
        parser_memory_pause(true);
        declarations->sink->note(declarations->sink->context, place, note);
        parser_memory_pause(false);
    }
    bytes_free(&line);
}

/* Checks that the name, which XML allows, is a QName (Namespaces in XML, production 7). */
void declarations_check_name(struct declarations *declarations, const xmlChar *name) {
    size_t colon = 0;
    if (!is_qname((struct span){plain(name), strlen(plain(name))}, &colon)) {
        fault_set(declarations->feed->fault, FAULT_MALFORMED, declarations_place(declarations), "malformed XML: the name '%s' is no QName of Namespaces in XML",
                  plain(name));
    }
}

/* Checks the names of a content model. It calls itself for brackets alone, of which libxml2 takes some two thousand in one another. */
static void check_content(struct declarations *declarations, const xmlElementContent *content) {
    for (; content != NULL; content = content->c2) {
        if (content->type == XML_ELEMENT_CONTENT_ELEMENT) {
            struct bytes name = NO_BYTES;
            bytes_format(&name, "%s%s%s", plain(content->prefix), content->prefix == NULL ? "" : ":", plain(content->name));
            declarations_check_name(declarations, (const xmlChar *)bytes_text(&name));
            bytes_free(&name);
        }
        check_content(declarations, content->c1);
    }
}

void declarations_names(struct declarations *declarations, const xmlChar *element, const xmlElementContent *content) {
    declarations_check_name(declarations, element);
    check_content(declarations, content);
}

/* Refuses two forms that libxml2 takes: a name directly after `<!DOCTYPE`, and declarations after the end (production 28). */
static void check_subset(struct declarations *declarations) {
    static const char begin[] = "<!DOCTYPE";
    struct feed *feed = declarations->feed;
    uint64_t end = feed_offset(feed);
    uint64_t offset = feed_markup(feed);
    char after_name = feed_byte(feed, offset + sizeof begin - 1);
    declarations->doctype = feed_place(feed, offset);
    if (after_name != ' ' && after_name != '\t' && after_name != '\n') {
        fault_set(feed->fault, FAULT_MALFORMED, feed_place(feed, offset), "malformed XML: no blank after <!DOCTYPE");
    } else if (feed_byte(feed, end) == '>' && feed_byte(feed, end + 1) == '[') {
        fault_set(feed->fault, FAULT_MALFORMED, feed_place(feed, end), "malformed XML: '[' after the end of the document type");
    }
}

void declarations_subset(struct declarations *declarations, const xmlChar *name, const xmlChar *public, const xmlChar *system) {
    xmlSAX2InternalSubset(declarations->feed->parser, name, public, system);
    check_subset(declarations);
    declarations_check_name(declarations, name);
    if ((public != NULL || system != NULL) && !loads_external(declarations)) {
        declarations_note(declarations, declarations->doctype,
                          "the external DTD '%s' is not loaded: its entities and attribute defaults are not there", system);
    }
}

void declarations_check_behind(struct declarations *declarations) {
    if (declarations->is_unread && (!is_alone(declarations) || is_in_entity(declarations->feed))) {
        declarations_refuse(declarations, "a declaration behind a parameter entity that is not loaded: outside the profile");
    }
}

/* Refuses the text of an entity that libxml2 would take long for, since it compares attributes in pairs. */
static void check_text(struct declarations *declarations, struct span text, bool is_parameter) {
    struct feed *feed = declarations->feed;
    if (!is_parameter && has_too_many_attributes(text, feed->most_attributes)) {
        feed_refuse(feed, declarations_place(declarations), too_many_attributes, feed->most_attributes, "--max-attributes");
    }
}

void declarations_entity(struct declarations *declarations, bool is_parameter, xmlChar *text) {
    declarations_check_behind(declarations);
    if (text == NULL) {
        return;
    }
    write_long_references_in((char *)text, strlen((const char *)text), !is_parameter);
    struct span span = {(const char *)text, strlen((const char *)text)};
    declarations->has_blank_references |= !is_parameter && has_blank_reference(span);
    check_text(declarations, span, is_parameter);
    struct span name;
    declarations->referring += !is_parameter && entity_text_next(&span, &name);
}

void declarations_declared(struct declarations *declarations, const xmlChar *name) {
    if (is_alone(declarations) && is_in_entity(declarations->feed)) {
        xmlEntityPtr entity = xmlGetDocEntity(declarations->feed->parser->myDoc, name);
        if (entity != NULL && entity->_private == NULL) {
            entity->_private = entity;
        }
    }
}

/* The same as xmlSAX2GetEntity, without an error for an entity that a document which stands alone does not have: libxml2 may be far from the reference. */
static xmlEntityPtr entity_named(xmlParserCtxtPtr parser, const xmlChar *name) {
    xmlEntityPtr predefined = parser->inSubset == 0 ? xmlGetPredefinedEntity(name) : NULL;
    if (parser->inSubset == 2) {
        return xmlSAX2GetEntity(parser, name);
    }
    return predefined != NULL || parser->myDoc == NULL ? predefined : xmlGetDocEntity(parser->myDoc, name);
}

xmlEntityPtr declarations_entity_of(struct declarations *declarations, struct span name) {
    struct bytes written = NO_BYTES;
    if (!long_names_write(&declarations->feed->shortening.names, name, &written)) {
        declarations_out_of_memory(declarations);
    }
    const char *text = bytes_text(&written);
    xmlEntityPtr entity = entity_named(declarations->feed->parser, (const xmlChar *)text);
    bytes_free(&written);
    return entity;
}

/* How many bytes may be read or written for one purpose. */
static uint64_t part_of_memory(const struct declarations *declarations) {
    return declarations->feed->most / PARTS_OF_MEMORY;
}

void declarations_refuse_part(struct declarations *declarations, const char *what) {
    feed_refuse(declarations->feed, declarations_place(declarations), what, part_of_memory(declarations), "--max-memory");
}

bool declarations_count_written(struct declarations *declarations, uint64_t bytes) {
    declarations->written += bytes;
    if (declarations->written > part_of_memory(declarations)) {
        declarations_refuse_part(declarations, "entities in entities have more than %s bytes");
    }
    return declarations->written <= part_of_memory(declarations);
}

bool declarations_count(struct declarations *declarations, uint64_t bytes) {
    uint64_t read = declarations->feed->begin + declarations->feed->given + declarations->loaded;
    declarations->expanded += bytes;
    return declarations->expanded <= part_of_memory(declarations) || declarations->expanded / MOST_GROWTH <= read;
}

size_t declarations_most_levels(const struct declarations *declarations) {
    size_t most = declarations->feed->most_depth;
    return most > LEVELS_OF_LIBXML2 ? most : LEVELS_OF_LIBXML2;
}

void declarations_refuse_levels(struct declarations *declarations) {
    static const char what[] = "more than %s entities are in one another";
    feed_refuse(declarations->feed, declarations_place(declarations), what, declarations_most_levels(declarations), "--max-depth");
}

struct twin *declarations_twin(struct declarations *declarations) {
    struct twin *twin = calloc(1, sizeof *twin);
    if (twin == NULL) {
        declarations_out_of_memory(declarations);
        return NULL;
    }
    twin->before = declarations->twins;
    declarations->twins = twin;
    return twin;
}

xmlChar *declarations_room(struct declarations *declarations, size_t size) {
    if (!declarations_count_written(declarations, size)) {
        return NULL;
    }
    struct twin *twin = declarations_twin(declarations);
    xmlChar *room = twin == NULL ? NULL : malloc(size);
    if (room == NULL) {
        declarations_out_of_memory(declarations);
    } else {
        twin->entity.content = room;
    }
    return room;
}

/* Says why an external entity or DTD was not read. */
static void refuse_external(struct declarations *declarations, const xmlChar *system, struct fault *why) {
    struct bytes what = NO_BYTES;
    bytes_format(&what, "'%s' is not loaded, %s: outside the profile", plain(system), bytes_text(&why->what));
    if (why->kind == FAULT_MEMORY || what.failed) {
        declarations_out_of_memory(declarations);
    } else {
        declarations_refuse(declarations, bytes_text(&what));
    }
    bytes_free(&what);
}

/* Notes that iconv has read an external entity, once a document. */
static void note_iconv(struct declarations *declarations, struct bytes *encoding) {
    if (encoding->length > 0 && !declarations->feed->has_told_iconv) {
        declarations->feed->has_told_iconv = true;
        declarations_note(declarations, declarations_place(declarations), read_by_iconv, BAD_CAST bytes_text(encoding));
    }
    bytes_free(encoding);
}

/* Counts and checks the text of an external entity. */
static void take_loaded(struct declarations *declarations, const struct bytes *text, bool is_parameter) {
    declarations->loaded += text->length;
    write_long_references_in(text->data, text->length, !is_parameter);
    check_text(declarations, (struct span){text->data, text->length}, is_parameter);
    if (declarations->loaded > part_of_memory(declarations)) {
        declarations_refuse_part(declarations, "external entities have more than %s bytes");
    }
}

/* Makes an internal entity of an external one, with the text and the path of its file. False: out of memory. */
static bool make_internal(xmlEntity *internal, const xmlEntity *external, struct bytes *text, struct bytes *path) {
    *internal = *external;
    internal->orig = NULL;
    internal->checked = 0;
    internal->length = (int)text->length;
    internal->content = (xmlChar *)strdup(bytes_text(text));
    xmlChar *uri = xmlPathToURI((const xmlChar *)bytes_text(path)); /* what it names is beside it */
    internal->URI = uri == NULL ? NULL : (xmlChar *)strdup((const char *)uri);
    xmlFree(uri);
    return internal->content != NULL && internal->URI != NULL && !text->failed;
}

/* Reads an external entity, as an internal one of this type. NULL: it was not read, and there is a fault. */
static struct twin *load(struct declarations *declarations, const xmlEntity *entity, xmlEntityType type) {
    struct bytes text = NO_BYTES;
    struct bytes path = NO_BYTES;
    struct fault why = NO_FAULT;
    struct bytes encoding = NO_BYTES;
    struct twin *twin = declarations_twin(declarations);
    if (entity->name == NULL) {
        bytes_add_byte(&text, '\n'); /* of the external DTD libxml2 would read a second mark or declaration at the start */
    }
    const struct external external = {entity->ExternalID, entity->URI};
    bool is_read = twin != NULL && external_read(&external, &text, &path, &encoding, &why);
    if (twin != NULL && !is_read) {
        refuse_external(declarations, entity->SystemID, &why);
    }
    note_iconv(declarations, &encoding);
    if (is_read) {
        take_loaded(declarations, &text, type == XML_INTERNAL_PARAMETER_ENTITY);
        is_read = make_internal(&twin->entity, entity, &text, &path);
        twin->entity.etype = type;
        if (!is_read) {
            declarations_out_of_memory(declarations);
        }
    }
    bytes_free(&text);
    bytes_free(&path);
    fault_free(&why);
    return is_read && declarations->feed->fault->kind == FAULT_NONE ? twin : NULL;
}

void declarations_flatten(struct declarations *declarations, char *text, size_t length) {
    struct feed *feed = declarations->feed;
    if (!make_declarations_shallow(text, length, feed->models.most)) {
        declarations_out_of_memory(declarations);
    }
    if (has_too_many_choices((struct span){text, length}, feed->most_attributes)) {
        feed_refuse(feed, declarations_parameter_place(declarations), too_many_choices, feed->most_attributes, "--max-attributes");
        memset(text, ' ', length); /* libxml2 would compare them in pairs before it sees that there is a fault */
    }
}

void declarations_flatten_twin(struct declarations *declarations, struct twin *twin) {
    declarations_flatten(declarations, (char *)twin->entity.content, strlen((const char *)twin->entity.content));
}

/* Forgets how many entities are in one another: that was found out for values by default, and entities that were not declared then may be now. */
static void forget_heights(struct declarations *declarations) {
    xmlHashFree(declarations->heights, NULL);
    declarations->heights = NULL;
}

xmlEntityPtr declarations_loaded(struct declarations *declarations, xmlEntityPtr entity, xmlEntityType type) {
    struct twin *twin = entity->_private;
    if (twin == NULL) {
        twin = load(declarations, entity, type);
        entity->_private = twin;
    }
    return twin == NULL ? NULL : &twin->entity;
}

void declarations_external(struct declarations *declarations, const xmlChar *name, const xmlChar *public, const xmlChar *system) {
    struct feed *feed = declarations->feed;
    forget_heights(declarations);
    /* a parameter entity that was not read comes before the external DTD */
    if (feed->fault->kind != FAULT_NONE || !loads_external(declarations) || (public == NULL && system == NULL)) {
        return;
    }
    feed->away_at = feed_offset(feed);
    feed->is_away = true;
    declarations->between = 1;
    feed->parser->loadsubset = XML_DETECT_IDS;
    xmlSAX2ExternalSubset(feed->parser, name, public, system);
    feed->is_away = false;
    forget_heights(declarations);
}

xmlParserInputPtr declarations_input(struct declarations *declarations, const xmlChar *public, const xmlChar *system) {
    xmlParserCtxtPtr parser = declarations->feed->parser;
    xmlChar *uri = xmlBuildURI(system, (const xmlChar *)parser->input->filename);
    xmlEntity external = {.ExternalID = public, .SystemID = system, .URI = uri};
    struct twin *twin = load(declarations, &external, XML_INTERNAL_PARAMETER_ENTITY);
    xmlFree(uri);
    if (twin == NULL) {
        return NULL;
    }
    declarations_flatten_twin(declarations, twin);
    return xmlNewEntityInputStream(parser, &twin->entity);
}
