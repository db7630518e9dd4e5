#include "events.h"

#include "attribute_defaults.h"
#include "declarations.h"
#include "entity_names.h"
#include "entity_references.h"
#include "entity_text.h"
#include "including.h"
#include "known_names.h"
#include "parser_memory.h"
#include "parser_words.h"
#include "tag_names.h"
#include "wide_names.h"
#include "xml_names.h"

#include <libxml/SAX2.h>
#include <libxml/parserInternals.h>
#include <libxml/uri.h>
#include <stdlib.h>
#include <string.h>

enum {
    ASKED_BYTES = 65536,   /* of texts, after which the receiver is asked how much it keeps */
    SEARCHED = 1000000000, /* namespaces that are looked at in any document */
    MOST_SEARCHED = 64,    /* and for each of its bytes, above that */
    COST_OF_DEFAULTS = 16, /* libxml2 compares attributes and namespaces by default with all others: so many pairs cost a byte */
};

struct reader {
    struct feed feed;
    char mark[LEFT_OUT_MARK + 1]; /* of a long entity that is declared */
    struct declarations declarations;
    struct event_sink sink;
    struct fault *fault;
    struct start_event start; /* the last one, with what is open now as its depth */
    const xmlChar *local;     /* its local name .. */
    const xmlChar *prefix;    /* .. and its prefix, if it is not usual, as libxml2 has them */
    struct event_attribute *attributes; /* room for those of a tag */
    size_t attribute_capacity;
    struct bytes values; /* those of its attributes that have blanks in the place of marks */
    struct event_declaration *declared; /* room for its declarations */
    size_t declared_capacity;
    bool has_bad_name;   /* the tag that is being read has a name that is no QName */
    bool has_double;     /* two of its attributes have one name */
    bool has_undeclared; /* a name of it has a prefix that is not declared */
    bool is_unusual;     /* the next tag has to be looked at, or elements may declare namespaces by default */
    bool is_empty;       /* the end of the last start tag is in it */
    bool has_marked_uri; /* a namespace had marks */
    bool has_passed;     /* the last declaration, or one before, had an error that was passed */
    uint64_t allowed; /* how many times what a tag usually may cost is allowed: it grows with the square of its attributes */
    size_t unasked;    /* the bytes of texts since the receiver was asked how much it keeps */
    uint64_t searched; /* how many open namespaces were looked at for names */
    struct parser_memory memory;
    struct known_names names; /* at the end, since most of it is not set at first */
};

/* The reader of this thread's document. libxml2 reports some errors without it. */
static _Thread_local struct reader *current = NULL;

static void out_of_memory(struct reader *reader) {
    fault_set(reader->fault, FAULT_MEMORY, (struct place){0, 0}, "out of memory");
}

static bool is_good(const struct reader *reader) {
    return reader->fault->kind == FAULT_NONE;
}

static void flush(void *context) {
    const struct reader *reader = context;
    if (is_good(reader) && reader->sink.flush != NULL) {
        parser_memory_pause(true); /* the receiver may use libxml2 itself */
        reader->sink.flush(reader->sink.context);
        parser_memory_pause(false);
    }
}

/* Asks the receiver how much it keeps. */
static void ask_held(struct reader *reader) {
    reader->unasked = 0;
    if (reader->sink.held != NULL) {
        reader->feed.kept = reader->sink.held(reader->sink.context);
    }
}

/* Does what is due before more of the document is read. */
static void before_read(void *context) {
    struct reader *reader = context;
    flush(reader);
    ask_held(reader);
}

static struct span span_of(const xmlChar *text) {
    return text == NULL ? (struct span){"", 0} : (struct span){(const char *)text, strlen((const char *)text)};
}

/* How many blanks begin the text. */
static size_t blanks_of(const char *text, size_t length) {
    size_t at = 0;
    while (at < length && (text[at] == ' ' || text[at] == '\t' || text[at] == '\n' || text[at] == '\r')) {
        at++;
    }
    return at;
}

/* Whether libxml2 reads the content of the document itself, and not that of an entity. */
static inline bool is_in_content(const struct reader *reader) {
    return reader->feed.parser->depth == 0 && reader->feed.parser->inputNr == 1;
}

/* Whether a piece of text is in the text of the document as libxml2 has it. */
static inline bool is_raw(const struct reader *reader, const xmlChar *text) {
    const xmlParserInput *input = reader->feed.parser->input;
    return is_in_content(reader) && text >= input->base && text < input->end;
}

/* The place of such a piece, which begins with so many blanks. Moves on behind it. */
static inline struct place raw_place(struct reader *reader, const xmlChar *text, size_t length, size_t blanks) {
    uint64_t begin = feed_offset_in(&reader->feed, reader->feed.parser->input, text);
    feed_move_on(&reader->feed, begin + length);
    return feed_event_place(&reader->feed, blanks < length ? begin + blanks : begin);
}

/* The place of another piece. Moves on behind it. Where the document has the piece as it is, its blanks are there too. An empty piece is not told, and
 * where it is may be far behind the next event. */
static struct place other_place(struct reader *reader, size_t length) {
    struct feed *feed = &reader->feed;
    uint64_t end = feed_offset(feed);
    if (feed->section.is_continued && feed_is_read(feed)) {
        uint64_t next = feed->next;
        feed_move(feed, end);
        return feed_place(feed, feed_behind_blanks(feed, next, length));
    }
    uint64_t begin = feed_settle(feed, end);
    bool is_in = feed_is_read(feed);
    bool has_blanks = is_in && feed_byte(feed, begin) != '&';
    if (is_in) {
        begin += feed_byte(feed, begin) == '<' ? strlen("<![CDATA[") : 0;
        feed_move(feed, end);
    }
    return length == 0 ? feed->place : feed_place(feed, has_blanks ? feed_behind_blanks(feed, begin, length) : begin);
}

/* Hands a piece of text to the receiver. */
static void hand_text(struct reader *reader, struct place place, struct span text, bool is_blank) {
    reader->sink.text(reader->sink.context, place, text, is_blank);
    reader->unasked += text.length;
    if (reader->unasked > ASKED_BYTES) {
        ask_held(reader);
        if (feed_is_over(&reader->feed)) {
            feed_check_memory(&reader->feed, place);
        }
    }
}

/* Takes any piece of text. */
static OUT_OF_LINE void take_any_text(struct reader *reader, const xmlChar *text, size_t length) {
    bool has_raw = is_raw(reader, text);
    size_t blanks = blanks_of((const char *)text, length);
    struct place place = has_raw ? raw_place(reader, text, length, blanks) : other_place(reader, length);
    if (length > 0) {
        hand_text(reader, place, (struct span){(const char *)text, length}, blanks == length);
    }
    if (!has_raw) {
        feed_shrink(&reader->feed); /* libxml2 may not between references */
    }
}

/* Takes a piece of text. This is called most often: if the piece is usual, no registers are saved, and nothing is called before the receiver. */
static void take_text(void *context, const xmlChar *text, int size) {
    struct reader *reader = context;
    size_t length = (size_t)size;
    if (!is_good(reader)) {
        return;
    }
    if (size <= 0 || reader->unasked + length > ASKED_BYTES || !is_raw(reader, text)) {
        take_any_text(reader, text, size > 0 ? length : 0);
        return;
    }
    size_t blanks = blanks_of((const char *)text, length);
    reader->unasked += length;
    reader->sink.text(reader->sink.context, raw_place(reader, text, length, blanks), (struct span){(const char *)text, length}, blanks == length);
}

/* Takes a CDATA section, or a part of one that was cut. */
static void take_section(void *context, const xmlChar *text, int size) {
    struct reader *reader = context;
    bool is_part = section_is_part(&reader->feed.section, feed_offset(&reader->feed), &reader->feed.skew);
    feed_check_inclusion(&reader->feed);
    take_text(context, text, size);
    if (feed_is_read(&reader->feed)) {
        section_begins_again(&reader->feed.section, is_part, &reader->feed.skew);
    }
}

/* Sets the place of a start tag in the document, and moves on behind it. */
static void set_tag(struct reader *reader) {
    struct feed *feed = &reader->feed;
    const xmlParserInput *input = feed->parser->input;
    uint64_t end = feed_offset_in(feed, input, input->cur);
    bool is_empty = *input->cur == '/';
    uint64_t begin = feed_byte(feed, feed->next) == '<' ? feed->next : feed_last(feed, end, "<");
    reader->start.place = feed_event_place(feed, begin);
    reader->is_empty = is_empty;
    feed_move_on(feed, end + 1 + is_empty);
}

/* Sets the place of a start tag in an entity. */
static void set_other_tag(struct reader *reader) {
    struct feed *feed = &reader->feed;
    reader->start.place = feed_place(feed, feed_settle(feed, feed_offset(feed)));
    reader->is_empty = false;
}

/* Makes room for one more item of this size. False: out of memory, and there is a fault. */
static bool has_room(struct reader *reader, void **items, size_t count, size_t *capacity, size_t size) {
    if (count < *capacity) {
        return true;
    }
    size_t wanted = *capacity == 0 ? 16 : 2 * *capacity;
    void *longer = realloc(*items, wanted * size);
    if (longer == NULL) {
        out_of_memory(reader);
        return false;
    }
    *items = longer;
    *capacity = wanted;
    return true;
}

/* Adds a value with blanks in the place of their marks. False: it has no marks, and is not added. */
static bool unmark(const struct reader *reader, struct span value, struct bytes *to) {
    bool is_marked = reader->declarations.has_marks && has_blank_marks(value);
    if (is_marked) {
        add_unmarked(value, to);
    }
    return is_marked;
}

/* Whether the blanks of an attribute's value are no part of it as they are: it is declared with another type than CDATA (XML 1.0, 3.3.3). */
static bool is_tokenized(const struct reader *reader, const xmlChar *prefix, const xmlChar *local) {
    xmlHashTablePtr types = reader->feed.parser->attsSpecial;
    void *type = types == NULL ? NULL : xmlHashQLookup2(types, reader->prefix, reader->local, prefix, local);
    return type != NULL && (intptr_t)type != XML_ATTRIBUTE_CDATA;
}

/* Adds a namespace of which libxml2 has a part or marks. False: it has the namespace as it is. */
static bool add_uri(const struct reader *reader, struct span uri, bool has_tokens, struct bytes *to) {
    const struct left_out *left = &reader->feed.shortening.left;
    struct bytes whole = NO_BYTES;
    bool is_part = has_left_out(left) && left_out_is_in(left, uri);
    if (is_part && has_tokens) {
        left_out_add_tokens(left, uri, &whole);
    } else if (is_part) {
        left_out_add(left, uri, &whole);
    }
    if (is_part) {
        uri = (struct span){whole.data, whole.length};
    }
    bool is_marked = unmark(reader, uri, to);
    if (is_part && !is_marked) {
        *to = whole;
        return true;
    }
    to->failed |= whole.failed;
    bytes_free(&whole);
    return is_marked;
}

/* Keeps what is told of a namespace. Only where its text does not stay, a copy of that is looked up. */
static struct span kept_uri(struct reader *reader, const xmlChar *uri, struct bytes *told) {
    xmlDictPtr dictionary = reader->feed.parser->dict;
    const xmlChar *key = xmlDictOwns(dictionary, uri) == 1 ? uri : xmlDictLookup(dictionary, uri, -1);
    bytes_text(told);
    const struct span *kept = key == NULL ? NULL : long_uris_put(&reader->feed.shortening.uris, key, told);
    if (kept == NULL) {
        out_of_memory(reader);
    }
    bytes_free(told);
    return kept == NULL ? (struct span){"", 0} : *kept;
}

/* What is told of a namespace that is not kept. */
static OUT_OF_LINE struct span new_uri(struct reader *reader, const xmlChar *uri, bool has_tokens) {
    struct span span = span_of(uri);
    struct bytes told = NO_BYTES;
    bool is_marked = add_uri(reader, span, has_tokens, &told);
    reader->has_marked_uri |= is_marked;
    if (!is_marked && span.length < LONG_URI) {
        return span;
    }
    if (!is_marked) {
        bytes_add(&told, span.data, span.length);
    }
    return kept_uri(reader, uri, &told);
}

/* What is told of a namespace: the whole URI without marks. It stays where it is. */
static struct span told_uri(struct reader *reader, const xmlChar *uri) {
    const struct span *told = uri == NULL ? NULL : long_uris_told(&reader->feed.shortening.uris, uri);
    return told != NULL ? *told : uri == NULL ? (struct span){"", 0} : new_uri(reader, uri, false);
}

/* Takes the namespaces that a tag declares of which libxml2 has a part. Their attributes may have types. */
static void take_parts_of_uris(struct reader *reader, int count, const xmlChar **namespaces) {
    static const xmlChar name[] = "xmlns";
    for (int at = 0; at < count && is_good(reader); at++) {
        const xmlChar *prefix = namespaces[2 * at];
        const xmlChar *uri = namespaces[2 * at + 1];
        bool has_tokens = is_tokenized(reader, prefix == NULL ? NULL : name, prefix == NULL ? name : prefix);
        if (uri != NULL && has_tokens && long_uris_told(&reader->feed.shortening.uris, uri) == NULL) {
            new_uri(reader, uri, true);
        }
    }
}

/* Adds a declaration to those of the tag. */
static void add_declaration(struct reader *reader, struct start_event *start, struct span prefix, struct span uri) {
    void *list = reader->declared;
    if (has_room(reader, &list, start->declaration_count, &reader->declared_capacity, sizeof *reader->declared)) {
        reader->declared = list;
        reader->declared[start->declaration_count++] = (struct event_declaration){prefix, uri};
    }
}

static bool is_text(struct span span, const char *text, size_t length) {
    return span.length == length && memcmp(span.data, text, length) == 0;
}

/* Whether the name as it is written, which ends in a zero, is this one. */
static bool is_written(const struct event_name *name, const char *written) {
    size_t prefix = name->prefix.length;
    size_t begin = prefix == 0 ? 0 : prefix + 1;
    size_t length = strlen(written);
    if (length != begin + name->local.length || !is_text(name->local, written + begin, name->local.length)) {
        return false;
    }
    return prefix == 0 || (is_text(name->prefix, written, prefix) && written[prefix] == ':');
}

/* Whether the tag declares the prefix itself. */
static bool declares(const struct reader *reader, size_t count, struct span prefix) {
    for (size_t at = 0; at < count; at++) {
        if (is_text(prefix, reader->declared[at].prefix.data, reader->declared[at].prefix.length)) {
            return true;
        }
    }
    return false;
}

/* Counts what attributes or namespaces by default cost, in bytes. */
static void count_defaults(struct reader *reader, uint64_t cost) {
    uint64_t counted = cost / reader->allowed;
    if (counted > 0 && !declarations_count(&reader->declarations, counted)) {
        feed_refuse(&reader->feed, reader->start.place, "attributes by default of more than %s times the document's length",
                    MOST_GROWTH * reader->allowed, feed_raising(&reader->feed));
    }
}

/* Adds the namespaces that the element declares by default. libxml2 leaves some of them out. */
static void add_defaults(struct reader *reader, struct start_event *start) {
    const struct declarations *declarations = &reader->declarations;
    size_t own = start->declaration_count;
    uint64_t count = 0;
    for (size_t at = 0; at < declarations->default_count && is_good(reader); at++) {
        const struct namespace_default *found = &declarations->defaults[at];
        const char *prefix = found->name[5] == '\0' ? "" : found->name + 6;
        bool is_of_tag = is_written(start->name, found->element);
        count += is_of_tag;
        if (is_of_tag && !declares(reader, own, (struct span){prefix, strlen(prefix)})) {
            add_declaration(reader, start, (struct span){prefix, strlen(prefix)}, (struct span){found->value, strlen(found->value)});
        }
    }
    count_defaults(reader, (count * count + declarations->default_count) / COST_OF_DEFAULTS);
}

/* The whole name of one that libxml2 has. */
static struct span whole_name(const struct reader *reader, struct span name) {
    return long_names_whole(&reader->feed.shortening.names, name);
}

/* Refuses a long name without a number. */
static void check_long_span(struct reader *reader, struct span name) {
    if (!long_names_have(&reader->feed.shortening.names, name)) {
        fault_set(reader->fault, FAULT_OUTSIDE, declarations_place(&reader->declarations),
                  "over a limit of this program: a name of a parameter entity or an external one has more than 10,000 bytes");
    }
}

static void check_long_name(struct reader *reader, const xmlChar *name) {
    check_long_span(reader, span_of(name));
}

static void add_declarations(struct reader *reader, struct start_event *start, int count, const xmlChar **namespaces) {
    start->declaration_count = 0;
    for (int at = 0; at < count && is_good(reader); at++) {
        check_long_name(reader, namespaces[2 * at]);
        add_declaration(reader, start, whole_name(reader, span_of(namespaces[2 * at])), told_uri(reader, namespaces[2 * at + 1]));
    }
    if (reader->declarations.default_count > 0) {
        add_defaults(reader, start);
    }
    start->declarations = reader->declared;
}

/* The name of an element or attribute, until another one is asked for. */
static const struct event_name *name_of(struct reader *reader, const xmlChar *local, const xmlChar *prefix, const xmlChar *uri) {
    size_t place = known_place(local);
    if (is_known(&reader->names, place, local, prefix, uri)) {
        return &reader->names.slots[place].name;
    }
    reader->has_undeclared |= prefix != NULL && (uri == NULL || *uri == '\0');
    const struct event_name *name = known_name_new(&reader->names, reader->feed.parser->dict, local, prefix, uri, told_uri(reader, uri));
    if (name == NULL) {
        static const struct event_name none = {{"", 0}, {"", 0}, {"", 0}};
        out_of_memory(reader);
        return &none;
    }
    check_long_name(reader, local);
    check_long_name(reader, prefix);
    return name;
}

/* Makes room for the values that have marks, so that they stay where they are. */
static void clear_values(struct reader *reader, int count, const xmlChar **attributes) {
    size_t length = 0;
    bytes_clear(&reader->values);
    for (int at = 0; at < count; at++, attributes += 5) {
        length += attributes[3] == NULL ? 0 : (size_t)(attributes[4] - attributes[3]);
    }
    if (!bytes_reserve(&reader->values, length)) {
        out_of_memory(reader);
    }
}

/* The value without marks. One of which libxml2 has a part is left: it is written whole before. */
static struct span unmarked(struct reader *reader, struct span value) {
    const struct left_out *left = &reader->feed.shortening.left;
    const struct bytes *values = &reader->values;
    size_t begin = values->length;
    bool is_part = reader->declarations.has_marks && has_left_out(left) && left_out_is_in(left, value);
    bool is_marked = !is_part && unmark(reader, value, &reader->values);
    return is_marked ? (struct span){values->data + begin, values->length - begin} : value;
}

/* How many bytes the values of the tag have as a whole of which libxml2 has got a part. */
static size_t whole_length(const struct reader *reader) {
    const struct left_out *left = &reader->feed.shortening.left;
    size_t length = 0;
    for (size_t at = 0; at < reader->start.attribute_count; at++) {
        struct span value = reader->attributes[at].value;
        length += left_out_is_in(left, value) ? left_out_length(left, value) : 0;
    }
    return length;
}

/* Adds a value as a whole, for which there is room, without marks. Returns it. */
static struct span unmarked_whole(struct reader *reader, struct span value, bool has_tokens) {
    const struct left_out *left = &reader->feed.shortening.left;
    struct bytes *whole = &reader->feed.shortening.whole;
    size_t begin = whole->length;
    if (has_tokens) {
        left_out_add_tokens(left, value, whole);
    } else {
        left_out_add(left, value, whole);
    }
    struct span found = {whole->data + begin, whole->length - begin};
    if (!unmark(reader, found, whole)) {
        return found;
    }
    size_t length = whole->length - begin - found.length;
    memmove(whole->data + begin, whole->data + begin + found.length, length);
    whole->length = begin + length;
    return (struct span){whole->data + begin, length};
}

/* Writes the values of a tag whole of which libxml2 has got a part. */
static void write_whole(struct reader *reader, const xmlChar **attributes) {
    const struct left_out *left = &reader->feed.shortening.left;
    struct bytes *whole = &reader->feed.shortening.whole;
    size_t length = whole_length(reader);
    if (!bytes_reserve(whole, reader->declarations.has_marks ? 2 * length : length)) {
        out_of_memory(reader);
    }
    for (size_t at = 0; at < reader->start.attribute_count && is_good(reader); at++, attributes += 5) {
        struct span *value = &reader->attributes[at].value;
        if (left_out_is_in(left, *value)) {
            *value = unmarked_whole(reader, *value, is_tokenized(reader, attributes[1], attributes[0]));
        }
    }
    count_defaults(reader, length);
    feed_check_memory(&reader->feed, reader->start.place);
}

static void add_attributes(struct reader *reader, struct start_event *start, int count, const xmlChar **attributes) {
    start->attribute_count = 0;
    if (reader->declarations.has_marks) {
        clear_values(reader, count, attributes);
    }
    for (int at = 0; at < count && is_good(reader); at++) {
        const xmlChar **attribute = attributes + 5 * at;
        void *list = reader->attributes;
        if (attribute[3] == NULL) {
            out_of_memory(reader); /* for the value of a default */
        } else if (has_room(reader, &list, start->attribute_count, &reader->attribute_capacity, sizeof *reader->attributes)) {
            reader->attributes = list;
            struct span value = {(const char *)attribute[3], (size_t)(attribute[4] - attribute[3])};
            reader->attributes[start->attribute_count++] =
                (struct event_attribute){*name_of(reader, attribute[0], attribute[1], attribute[2]), unmarked(reader, value)};
        }
    }
    start->attributes = reader->attributes;
    if (has_left_out(&reader->feed.shortening.left) && is_good(reader)) {
        write_whole(reader, attributes);
    }
}

/* Finds out whether the tag breaks Namespaces in XML, if that is wanted. */
static void check_names(struct reader *reader, const struct start_event *start) {
    struct bytes words = NO_BYTES;
    int clause = tag_names_fault(start, reader->has_bad_name, reader->has_double, &words);
    if (clause != 0) {
        const char *text = bytes_text(&words);
        if (words.failed) {
            out_of_memory(reader);
        }
        fault_set_clause(reader->fault, clause, start->place, text);
    }
    bytes_free(&words);
}

/* Writes a part of a name as libxml2 has it. */
static const xmlChar *name_for_libxml2(struct reader *reader, struct span name, struct bytes *text) {
    if (!long_names_write(&reader->feed.shortening.names, name, text)) {
        out_of_memory(reader);
    }
    return (const xmlChar *)bytes_text(text);
}

/* Whether the attribute that libxml2 has not got is declared with another type than CDATA. */
static bool is_wide_tokenized(struct reader *reader, struct span prefix, struct span local) {
    struct bytes texts[2] = {NO_BYTES, NO_BYTES};
    bool is_declared = reader->feed.parser->attsSpecial != NULL;
    const xmlChar *written = is_declared && prefix.length > 0 ? name_for_libxml2(reader, prefix, &texts[0]) : NULL;
    bool is_one = is_declared && is_tokenized(reader, written, name_for_libxml2(reader, local, &texts[1]));
    bytes_free(&texts[0]);
    bytes_free(&texts[1]);
    return is_one;
}

/* A part of a name whose text stays until the document has been read, and is there once. */
static struct span staying(struct reader *reader, struct span name) {
    struct bytes text = NO_BYTES;
    struct span kept = {"", 0};
    bytes_add(&text, name.data, name.length);
    if (text.failed || !long_names_keep(&reader->feed.shortening.names, &text, &kept)) {
        out_of_memory(reader);
    }
    bytes_free(&text);
    return kept;
}

/* What is told of the namespace of a prefix; an empty text: there is none. */
static struct span uri_of(struct reader *reader, struct span prefix) {
    const xmlParserCtxt *parser = reader->feed.parser;
    struct bytes text = NO_BYTES;
    const xmlChar *written = xmlDictLookup(parser->dict, name_for_libxml2(reader, prefix, &text), -1);
    const xmlChar *found = written == parser->str_xml ? parser->str_xml_ns : NULL;
    for (int at = parser->nsNr - 2; at >= 0 && found == NULL; at -= 2) {
        found = parser->nsTab[at] == written ? parser->nsTab[at + 1] : NULL;
    }
    bytes_free(&text);
    reader->has_undeclared |= found == NULL || *found == '\0';
    return told_uri(reader, found);
}

/* The value of an attribute that libxml2 has not got, as it is normalized. */
static struct span wide_value(struct reader *reader, size_t at, bool has_tokens) {
    size_t length = 0;
    char *value = wide_tag_value(&reader->feed.wide, at, &length);
    return (struct span){value, has_tokens ? leave_tokens(value, length) : length};
}

/* Adds an attribute that libxml2 has not got. */
static void add_wide_attribute(struct reader *reader, struct start_event *start, size_t at) {
    struct span name = wide_tag_name(&reader->feed.wide, at);
    const char *colon = memchr(name.data, ':', name.length);
    struct span prefix = {name.data, colon == NULL ? 0 : (size_t)(colon - name.data)};
    struct span local = span_from(name, colon == NULL ? 0 : prefix.length + 1);
    struct span value = wide_value(reader, at, is_wide_tokenized(reader, prefix, local));
    struct span uri = colon == NULL ? (struct span){"", 0} : uri_of(reader, prefix);
    void *list = reader->attributes;
    if (is_good(reader) && has_room(reader, &list, start->attribute_count, &reader->attribute_capacity, sizeof *reader->attributes)) {
        reader->attributes = list;
        prefix = colon == NULL ? (struct span){"", 0} : staying(reader, prefix);
        reader->attributes[start->attribute_count++] = (struct event_attribute){{prefix, staying(reader, local), uri}, value};
    }
}

/* Takes an attribute that has the name of one before it: as it is written, or else by its namespace. */
static void take_double(struct reader *reader, const struct start_event *start, size_t before, size_t index) {
    const struct event_name *name = &start->attributes[index].name;
    struct event_attribute both[] = {start->attributes[before], start->attributes[index]};
    struct start_event tag = *start;
    if (span_equal(name->prefix, both[0].name.prefix)) {
        struct place place = feed_place(&reader->feed, feed_offset(&reader->feed)); /* libxml2 is there when it finds that */
        fault_set(reader->fault, FAULT_MALFORMED, place, "malformed XML: the attribute %.*s%s%.*s is there twice", (int)name->prefix.length,
                  name->prefix.data, name->prefix.length > 0 ? ":" : "", (int)name->local.length, name->local.data);
    } else if (reader->sink.checks_names) {
        check_names(reader, start);
        tag.attributes = both;
        tag.attribute_count = sizeof both / sizeof *both;
        reader->has_double = true;
        check_names(reader, &tag);
        reader->has_double = false;
    }
}

/* What of a wide tag was compared. `given` of the attributes that libxml2 has got are in the tag, and the others, up to `count`, are there by default. */
struct comparing {
    struct wide_names names;
    size_t given, count;
};

/* Compares the names of the attributes that are in the tag. */
static void compare_given(struct reader *reader, const struct start_event *start, struct comparing *comparing) {
    for (size_t at = 0; at < start->attribute_count && is_good(reader); at++) {
        bool is_default = at >= comparing->given && at < comparing->count;
        size_t before = is_default ? at : wide_names_put(&comparing->names, reader->attributes, at);
        if (before < at) {
            take_double(reader, start, before, at);
        }
    }
}

/* Takes the name off what is there by default, and in the tag too. */
static void compare_defaults(struct reader *reader, const struct start_event *start, struct comparing *comparing) {
    for (size_t at = comparing->given; at < comparing->count && is_good(reader); at++) {
        struct event_name *name = &reader->attributes[at].name;
        size_t before = wide_names_put(&comparing->names, reader->attributes, at);
        if (before != at && span_equal(reader->attributes[before].name.prefix, name->prefix)) {
            name->local.length = 0;
        } else if (before != at) {
            take_double(reader, start, before, at);
        }
    }
}

/* Drops the attributes without a name. */
static void drop_nameless(struct reader *reader, struct start_event *start) {
    size_t kept = 0;
    for (size_t at = 0; at < start->attribute_count; at++) {
        reader->attributes[kept] = reader->attributes[at];
        kept += reader->attributes[at].name.local.length > 0;
    }
    start->attribute_count = kept;
}

/* Compares the names of all attributes of a wide tag. */
static void compare_wide(struct reader *reader, struct start_event *start, size_t given, size_t count) {
    struct comparing comparing = {{NULL, NULL, 0, {0, 0}}, given, count};
    if (wide_names_open(&comparing.names, start->attribute_count)) {
        compare_given(reader, start, &comparing);
        compare_defaults(reader, start, &comparing);
        drop_nameless(reader, start);
    } else {
        out_of_memory(reader);
    }
    wide_names_free(&comparing.names);
}

/* Adds the attributes that libxml2 has not got. */
static void add_wide(struct reader *reader, struct start_event *start, size_t given) {
    size_t count = start->attribute_count;
    for (size_t at = 0; at < reader->feed.wide.count && is_good(reader); at++) {
        add_wide_attribute(reader, start, at);
    }
    start->attributes = reader->attributes;
    if (is_good(reader)) {
        compare_wide(reader, start, given, count);
    }
    reader->has_double = false; /* all were compared */
}

/* Refuses a declaration of a namespace that libxml2 would refuse if it had the whole. */
static void check_declarations(struct reader *reader, const struct start_event *start) {
    struct bytes words = NO_BYTES;
    if (tag_has_forbidden(start, &words)) {
        const char *text = bytes_text(&words);
        if (words.failed) {
            out_of_memory(reader);
        }
        fault_set(reader->fault, FAULT_MALFORMED, start->place, "malformed XML: %s", text);
    }
    bytes_free(&words);
}

/* Counts an element that is open. */
static void count_open(struct reader *reader) {
    reader->start.depth++;
    if (reader->start.depth > reader->feed.most_depth) {
        feed_refuse(&reader->feed, reader->start.place, "more than %s elements are open", reader->feed.most_depth, "--max-depth");
    }
}

/* Refuses a tag with too many attributes and declarations of its own that came at once. */
static void check_width(struct reader *reader, size_t count) {
    if (count > reader->feed.most_attributes) {
        feed_refuse(&reader->feed, reader->start.place, too_many_attributes, reader->feed.most_attributes, "--max-attributes");
    }
}

/* How many open namespaces libxml2 looks at for the names of a tag. */
static uint64_t searched_for(const struct reader *reader, int attribute_count) {
    return ((uint64_t)attribute_count + 1) * (uint64_t)reader->feed.parser->nsNr / 2;
}

/* Counts what libxml2 takes for a tag beside its length: it looks for each name in the open namespaces, and adds the attributes that are there by default. */
static void count_costs(struct reader *reader, int attribute_count, int default_count, const xmlChar **attributes) {
    uint64_t defaults = (uint64_t)default_count;
    uint64_t cost = defaults * (uint64_t)attribute_count / COST_OF_DEFAULTS;
    reader->searched += searched_for(reader, attribute_count) + reader->feed.wide.count * (uint64_t)reader->feed.parser->nsNr / 2;
    uint64_t searched = reader->searched / reader->allowed;
    if (searched > SEARCHED && searched / MOST_SEARCHED > feed_offset(&reader->feed) + reader->declarations.loaded) {
        feed_refuse(&reader->feed, reader->start.place, "too many declarations of namespaces are in scope",
                    0, feed_raising(&reader->feed));
    }
    for (int at = attribute_count - default_count; at < attribute_count; at++) {
        const xmlChar **attribute = attributes + 5 * at;
        cost += attribute[3] == NULL ? 0 : (uint64_t)(attribute[4] - attribute[3]);
    }
    count_defaults(reader, cost);
}

/* Hands the start to the receiver. A name that is no QName is a fault, if no other is found. */
static void hand_start(struct reader *reader, const struct start_event *start) {
    bool may_break = reader->has_bad_name || reader->has_double || reader->has_undeclared || start->declaration_count > 0;
    if (reader->sink.checks_names && may_break) {
        check_names(reader, start);
    } else if (has_left_out(&reader->feed.shortening.left) && start->declaration_count > 0) {
        check_declarations(reader, start);
    }
    if (is_good(reader)) {
        reader->sink.start(reader->sink.context, start);
    }
    if (reader->has_bad_name) {
        flush(reader); /* the receiver comes first: it may know that too, and say more */
        fault_set(reader->fault, FAULT_MALFORMED, reader->start.place, "malformed XML: a name that is no QName of Namespaces in XML");
    }
}

/* Takes any start tag. */
static OUT_OF_LINE void take_any_start(void *context, const xmlChar *local, const xmlChar *prefix, const xmlChar *uri, int namespace_count,
                                  const xmlChar **namespaces, int attribute_count, int default_count, const xmlChar **attributes) {
    struct reader *reader = context;
    struct start_event *start = &reader->start;
    if (is_in_content(reader)) {
        set_tag(reader);
    } else {
        set_other_tag(reader);
    }
    reader->local = local;
    reader->prefix = prefix;
    count_open(reader);
    check_width(reader, (size_t)(attribute_count - default_count) + (size_t)namespace_count);
    count_costs(reader, attribute_count, default_count, attributes);
    if (has_left_out(&reader->feed.shortening.left)) {
        take_parts_of_uris(reader, namespace_count, namespaces);
    }
    add_attributes(reader, start, attribute_count, attributes);
    start->name = name_of(reader, local, prefix, uri);
    add_declarations(reader, start, namespace_count, namespaces);
    if (reader->feed.wide.count > 0) {
        add_wide(reader, start, (size_t)(attribute_count - default_count));
    } else if (reader->has_marked_uri) { /* libxml2 may not see that two namespaces are one */
        count_defaults(reader, (uint64_t)attribute_count * (uint64_t)attribute_count / COST_OF_DEFAULTS);
        reader->has_double = true;
    }
    if (is_good(reader)) {
        hand_start(reader, start);
    }
    bytes_free(&reader->feed.shortening.whole);
    left_out_forget(&reader->feed.shortening.left);
    wide_tag_forget(&reader->feed.wide);
    reader->has_double = false;
    reader->has_undeclared = false;
    reader->is_unusual = reader->declarations.default_count > 0 || reader->declarations.has_marks;
}

/* Whether a start tag is usual: in the document, of a known name, with nothing that is declared or that is there by default. */
static inline bool is_usual_start(const struct reader *reader, bool is_named, int namespace_count, int default_count, int attribute_count) {
    bool is_plain = is_named && namespace_count == 0 && default_count == 0 && !reader->is_unusual;
    return is_plain && is_in_content(reader) && reader->start.depth < reader->feed.most_depth &&
           reader->searched + searched_for(reader, attribute_count) <= SEARCHED;
}

/* Hands a usual start to the receiver, whose attributes are set. */
static inline void hand_usual_start(struct reader *reader, const struct event_name *name, int attribute_count) {
    set_tag(reader);
    reader->start.depth++;
    reader->searched += searched_for(reader, attribute_count);
    reader->start.name = name;
    reader->start.declaration_count = 0;
    reader->start.attribute_count = (size_t)attribute_count;
    reader->sink.start(reader->sink.context, &reader->start);
}

/* Sets the attributes of a tag. False: a name is not known, or there is no room. */
static inline bool set_known_attributes(struct reader *reader, size_t count, const xmlChar **attributes) {
    if (count > reader->attribute_capacity) {
        return false;
    }
    reader->start.attributes = reader->attributes;
    struct event_attribute *end = reader->attributes + count;
    for (struct event_attribute *to = reader->attributes; to < end; to++, attributes += 5) {
        size_t place = known_place(attributes[0]);
        if (!is_known(&reader->names, place, attributes[0], attributes[1], attributes[2])) {
            return false;
        }
        *to = (struct event_attribute){reader->names.slots[place].name, {(const char *)attributes[3], (size_t)(attributes[4] - attributes[3])}};
    }
    return true;
}

/* Takes a start tag that has attributes, or is not usual. */
static OUT_OF_LINE void take_full_start(void *context, const xmlChar *local, const xmlChar *prefix, const xmlChar *uri, int namespace_count,
                                        const xmlChar **namespaces, int attribute_count, int default_count, const xmlChar **attributes) {
    struct reader *reader = context;
    size_t place = known_place(local);
    bool is_named = is_known(&reader->names, place, local, prefix, uri);
    if (!is_good(reader)) {
        return;
    }
    bool is_narrow = (size_t)attribute_count <= reader->feed.most_attributes;
    if (is_narrow && is_usual_start(reader, is_named, namespace_count, default_count, attribute_count) &&
        set_known_attributes(reader, (size_t)attribute_count, attributes)) {
        hand_usual_start(reader, &reader->names.slots[place].name, attribute_count);
    } else {
        take_any_start(context, local, prefix, uri, namespace_count, namespaces, attribute_count, default_count, attributes);
    }
}

/* Takes a start tag, as take_text does a text. */
static void take_start(void *context, const xmlChar *local, const xmlChar *prefix, const xmlChar *uri, int namespace_count, const xmlChar **namespaces,
                       int attribute_count, int default_count, const xmlChar **attributes) {
    struct reader *reader = context;
    size_t place = known_place(local);
    if (attribute_count == 0 && is_good(reader) && is_usual_start(reader, is_known(&reader->names, place, local, prefix, uri), namespace_count, 0, 0)) {
        hand_usual_start(reader, &reader->names.slots[place].name, 0);
        return;
    }
    take_full_start(context, local, prefix, uri, namespace_count, namespaces, attribute_count, default_count, attributes);
}

/* The place of an end tag in the document; of an empty element it is behind its tag. Moves on behind it. */
static inline struct place end_place(struct reader *reader) {
    struct feed *feed = &reader->feed;
    const xmlParserInput *input = feed->parser->input;
    uint64_t end = feed_offset_in(feed, input, input->cur);
    bool is_next = feed_byte(feed, feed->next) == '<' && feed_byte(feed, feed->next + 1) == '/';
    uint64_t begin = reader->is_empty ? end : is_next ? feed->next : feed_last(feed, end, "</");
    reader->is_empty = false;
    feed_move_on(feed, end);
    return feed_event_place(feed, begin);
}

/* Hands an end to the receiver. */
static inline void hand_end(struct reader *reader, struct place place, const struct event_name *name) {
    reader->start.depth--;
    reader->sink.end(reader->sink.context, place, name);
}

/* Takes any end. */
static OUT_OF_LINE void take_any_end(void *context, const xmlChar *local, const xmlChar *prefix, const xmlChar *uri) {
    struct reader *reader = context;
    struct feed *feed = &reader->feed;
    const struct event_name *name = name_of(reader, local, prefix, uri);
    hand_end(reader, is_in_content(reader) ? end_place(reader) : feed_place(feed, feed_settle(feed, feed_offset(feed))), name);
}

/* Takes an end, as take_text does a text. */
static void take_end(void *context, const xmlChar *local, const xmlChar *prefix, const xmlChar *uri) {
    struct reader *reader = context;
    size_t place = known_place(local);
    if (!is_good(reader)) {
        return;
    }
    if (!is_in_content(reader) || !is_known(&reader->names, place, local, prefix, uri)) {
        take_any_end(context, local, prefix, uri);
        return;
    }
    hand_end(reader, end_place(reader), &reader->names.slots[place].name);
}

/* The place of an instruction. One of a parameter entity is at the reference. */
static struct place instruction_place(struct reader *reader) {
    struct feed *feed = &reader->feed;
    uint64_t end = feed_offset(feed);
    if (!feed_is_read(feed) && !feed->is_away && feed->parser->inSubset != 0) {
        return feed_place(feed, feed_last(feed, end, "%"));
    }
    uint64_t begin = feed_settle(feed, end);
    if (feed_is_read(&reader->feed)) {
        while (blanks_of((char[]){feed_byte(feed, begin)}, 1) == 1) {
            begin++;
        }
        if (feed_byte(feed, begin + 1) != '?') { /* the end of a declaration or a reference is before it */
            uint64_t markup = feed_markup(feed);
            begin = feed_byte(feed, markup + 1) == '?' ? markup : feed_last(feed, end, "<?");
        }
        feed_move(feed, end);
    }
    return feed_place(feed, begin);
}

/* Hands an instruction to the receiver. */
static void hand_instruction(struct reader *reader, struct span target, struct span data) {
    if (is_good(reader)) {
        reader->sink.instruction(reader->sink.context, instruction_place(reader), target, data);
    }
}

static void take_instruction(void *context, const xmlChar *target, const xmlChar *data) {
    struct reader *reader = context;
    struct span span = span_of(data);
    size_t mark = strlen(instruction_mark);
    bool is_in_entity = !feed_is_read(&reader->feed) || reader->feed.inclusions.count > 0;
    if (is_in_entity && span.length > mark && memcmp(span.data, instruction_mark, mark) == 0 && span.data[mark] == '%') {
        span = (struct span){span.data + mark, span.length - mark};
    }
    if (!feed_is_read(&reader->feed)) {
        hand_instruction(reader, span_of(target), span);
        return;
    }
    bool is_part = section_is_part(&reader->feed.section, feed_offset(&reader->feed), &reader->feed.skew);
    feed_check_inclusion(&reader->feed);
    if (!reader->feed.section.is_continued) {
        hand_instruction(reader, whole_name(reader, span_of(target)), span); /* of a long one this is the beginning */
    }
    feed_move(&reader->feed, feed_offset(&reader->feed));
    section_begins_again(&reader->feed.section, is_part, &reader->feed.skew);
}

/* A comment vanishes. */
static void take_comment(void *context, const xmlChar *text) {
    struct reader *reader = context;
    (void)text;
    if (feed_is_read(&reader->feed)) {
        bool is_part = section_is_part(&reader->feed.section, feed_offset(&reader->feed), &reader->feed.skew);
        feed_check_inclusion(&reader->feed);
        feed_move(&reader->feed, feed_offset(&reader->feed));
        section_begins_again(&reader->feed.section, is_part, &reader->feed.skew);
    }
}

/* What was read is no markup that goes on. Makes libxml2 as it was before an error that was passed. */
static void move_on(struct reader *reader) {
    feed_check_inclusion(&reader->feed);
    if (reader->has_passed) {
        reader->feed.parser->recovery = 0;
        reader->feed.parser->wellFormed = 1;
        reader->has_passed = false;
    }
    if (reader->fault->kind == FAULT_NONE && feed_is_read(&reader->feed)) {
        feed_move(&reader->feed, feed_offset(&reader->feed));
    }
}

static void take_document(void *context) {
    struct reader *reader = context;
    xmlSAX2StartDocument(reader->feed.parser);
    move_on(reader);
}

static void take_subset(void *context, const xmlChar *name, const xmlChar *public, const xmlChar *system) {
    struct reader *reader = context;
    declarations_subset(&reader->declarations, name, public, system);
    move_on(reader);
    feed_move(&reader->feed, reader->feed.next + (feed_byte(&reader->feed, reader->feed.next) == '['));
}

static void take_subset_end(void *context, const xmlChar *name, const xmlChar *public, const xmlChar *system) {
    struct reader *reader = context;
    if (reader->feed.inclusions.count > 0) {
        feed_refuse_unbalanced(&reader->feed);
    }
    declarations_external(&reader->declarations, name, public, system);
    move_on(reader);
}

static xmlParserInputPtr give_input(void *context, const xmlChar *public, const xmlChar *system) {
    struct reader *reader = context;
    return declarations_input(&reader->declarations, public, system);
}

/* The text that libxml2 is to keep of an entity. Free the bytes. */
static xmlChar *kept_text(struct reader *reader, int type, xmlChar *text, struct bytes *written) {
    const char *begin = (const char *)text;
    if (type != XML_INTERNAL_PARAMETER_ENTITY || text == NULL || !entity_text_is_read_otherwise(begin)) {
        return text;
    }
    entity_text_declarations((struct span){begin, strlen(begin)}, written);
    const char *kept = bytes_text(written);
    if (written->failed) {
        out_of_memory(reader);
    }
    return (xmlChar *)kept;
}

/* The whole text of an entity of which libxml2 has got a part. Free the bytes. */
static xmlChar *whole_text(struct reader *reader, xmlChar *text, struct bytes *whole) {
    struct left_out *left = &reader->feed.shortening.left;
    struct span span = span_of(text);
    if (text == NULL || !has_left_out(left) || !feed_is_read(&reader->feed)) {
        return text;
    }
    if (!bytes_reserve(whole, left_out_length(left, span) + 1)) {
        out_of_memory(reader);
    } else {
        left_out_add(left, span, whole);
    }
    left_out_forget(left);
    return (xmlChar *)bytes_text(whole);
}

/* The text of an entity with numbers in its long names. Free the bytes. */
static xmlChar *numbered_text(struct reader *reader, xmlChar *text, bool is_parameter, struct bytes *numbered) {
    struct long_names *names = &reader->feed.shortening.names;
    if (!has_long_run(span_of(text))) {
        return text;
    }
    if (!add_with_numbers(names, span_of(text), is_parameter, numbered)) {
        out_of_memory(reader);
    }
    return (xmlChar *)bytes_text(numbered);
}

/* Keeps the text of a long entity, which is the whole one, or what libxml2 has. Returns what libxml2 is to keep: a mark, or nothing if it has the entity. */
static xmlChar *long_kept_text(struct reader *reader, const xmlChar *name, bool is_parameter, xmlChar *text, struct bytes *whole) {
    static xmlChar nothing[] = "";
    xmlDocPtr document = reader->feed.parser->myDoc;
    xmlEntityPtr entity = is_parameter ? xmlGetParameterEntity(document, name) : xmlGetDocEntity(document, name);
    if (entity != NULL || !is_good(reader)) {
        return nothing;
    }
    if (whole->length == 0) {
        bytes_add(whole, text, strlen((const char *)text));
    }
    declarations_keep_long(&reader->declarations, is_parameter, whole, reader->mark);
    return (xmlChar *)reader->mark;
}

/* The text of an entity that libxml2 is to keep. Free the bytes. */
static xmlChar *entity_text(struct reader *reader, const xmlChar *name, int type, xmlChar *text, struct bytes written[3]) {
    bool is_parameter = type == XML_INTERNAL_PARAMETER_ENTITY || type == XML_EXTERNAL_PARAMETER_ENTITY;
    xmlChar *whole = whole_text(reader, text, &written[0]);
    bool is_long = span_of(whole).length > LONGEST_ENTITY;
    xmlChar *value = is_long ? whole : numbered_text(reader, whole, is_parameter, &written[1]);
    declarations_entity(&reader->declarations, is_parameter, value);
    return is_long ? long_kept_text(reader, name, is_parameter, value, &written[0]) : kept_text(reader, type, value, &written[2]);
}

/* The file in which a declaration is: the text of an internal entity has none of its own (section 4.2.2). */
static const char *nearest_file(const xmlParserCtxt *parser) {
    int at = parser->inputNr - 1;
    while (at > 0 && parser->inputTab[at]->filename == NULL) {
        at--;
    }
    return at < 0 ? NULL : parser->inputTab[at]->filename;
}

static void take_entity(void *context, const xmlChar *name, int type, const xmlChar *public, const xmlChar *system, xmlChar *text) {
    struct reader *reader = context;
    struct bytes written[3] = {NO_BYTES, NO_BYTES, NO_BYTES};
    bool is_parameter = type == XML_INTERNAL_PARAMETER_ENTITY || type == XML_EXTERNAL_PARAMETER_ENTITY;
    bool is_first = is_parameter || xmlGetDocEntity(reader->feed.parser->myDoc, name) == NULL;
    check_long_name(reader, name);
    xmlParserInputPtr input = reader->feed.parser->input;
    const char *file = input->filename;
    xmlChar *kept = entity_text(reader, name, type, text, written);
    input->filename = nearest_file(reader->feed.parser);
    xmlSAX2EntityDecl(reader->feed.parser, name, type, public, system, kept);
    input->filename = file;
    for (size_t at = 0; at < sizeof written / sizeof *written; at++) {
        bytes_free(&written[at]);
    }
    if (!is_parameter && is_first) {
        declarations_declared(&reader->declarations, name);
    }
    move_on(reader);
}

static void take_unparsed(void *context, const xmlChar *name, const xmlChar *public, const xmlChar *system, const xmlChar *notation) {
    struct reader *reader = context;
    declarations_entity(&reader->declarations, false, NULL);
    if (notation == NULL) {
        fault_set(reader->fault, FAULT_MALFORMED, declarations_place(&reader->declarations), "malformed XML: no name after NDATA");
    }
    xmlSAX2UnparsedEntityDecl(reader->feed.parser, name, public, system, notation);
    move_on(reader);
}

/* Only libxml2's own handler would see that both identifiers are missing (production 82). */
static void take_notation(void *context, const xmlChar *name, const xmlChar *public, const xmlChar *system) {
    struct reader *reader = context;
    if (public == NULL && system == NULL) {
        fault_set(reader->fault, FAULT_MALFORMED, declarations_place(&reader->declarations), "malformed XML: notation '%s' has no identifier", plain(name));
    }
    move_on(reader);
}

/* Refuses a declaration in entities with too many choices that came at once. The document itself may have any number: libxml2 gets few of them. */
static void check_choices(struct reader *reader, const xmlEnumeration *choices) {
    size_t count = 0;
    for (const xmlEnumeration *at = feed_is_read(&reader->feed) ? NULL : choices; at != NULL; at = at->next) {
        count++;
    }
    if (count > reader->feed.most_attributes) {
        feed_refuse(&reader->feed, declarations_place(&reader->declarations), too_many_choices, reader->feed.most_attributes, "--max-attributes");
    }
}

/* The name of a declaration, with whole names in the place of long ones. */
static const xmlChar *whole_written(struct reader *reader, const xmlChar *written) {
    size_t colon = strcspn((const char *)written, ":");
    struct span prefix = {(const char *)written, colon};
    struct span local = span_of(written + colon);
    struct bytes whole = NO_BYTES;
    if (prefix.length <= LONGEST_NAME && local.length <= LONGEST_NAME) {
        return written;
    }
    check_long_span(reader, prefix);
    prefix = whole_name(reader, prefix);
    bytes_add(&whole, prefix.data, prefix.length);
    if (local.length > 0) {
        local = span_from(local, 1);
        check_long_span(reader, local);
        local = whole_name(reader, local);
        bytes_add_byte(&whole, ':');
        bytes_add(&whole, local.data, local.length);
    }
    const char *text = bytes_text(&whole);
    const xmlChar *found = whole.failed ? NULL : xmlDictLookup(reader->feed.parser->dict, (const xmlChar *)text, -1);
    bytes_free(&whole);
    if (found == NULL) {
        out_of_memory(reader);
    }
    return found == NULL ? written : found;
}

static void take_attribute(void *context, const xmlChar *element, const xmlChar *name, int type, int kind, const xmlChar *value, xmlEnumerationPtr choices) {
    struct reader *reader = context;
    (void)kind;
    declarations_attribute(&reader->declarations, whole_written(reader, element), whole_written(reader, name), value, type != XML_ATTRIBUTE_CDATA);
    check_choices(reader, choices);
    reader->is_unusual = true;
    xmlFreeEnumeration(choices);
    move_on(reader);
    feed_shrink(&reader->feed);
}

static void take_element(void *context, const xmlChar *name, int type, xmlElementContentPtr content) {
    struct reader *reader = context;
    (void)type;
    declarations_names(&reader->declarations, name, content);
    feed_move_to_rest(&reader->feed);
    move_on(reader);
    feed_shrink(&reader->feed);
}

static xmlEntityPtr give_general(void *context, const xmlChar *name) {
    struct reader *reader = context;
    check_long_name(reader, name);
    xmlEntityPtr entity = declarations_general(&reader->declarations, name);
    reader->is_unusual |= reader->declarations.has_marks;
    return entity;
}

static xmlEntityPtr give_parameter(void *context, const xmlChar *name) {
    struct reader *reader = context;
    check_long_name(reader, name);
    return declarations_parameter(&reader->declarations, name);
}

/* Where an error is: at the tag that does not match, at the `]]>` that libxml2 has found behind the place where it is, at the reference to the entity in whose
 * text it is, or where libxml2 is. */
static struct place error_place(struct reader *reader, const parser_error *error) {
    struct feed *feed = &reader->feed;
    if (!feed_is_read(&reader->feed)) {
        return declarations_place(&reader->declarations);
    }
    uint64_t offset = feed_offset_in_tag(feed);
    if (error->code == XML_ERR_MISPLACED_CDATA_END) {
        offset = feed_first(feed, offset, "]]>");
    }
    return feed_place(feed, error->code == XML_ERR_TAG_NAME_MISMATCH ? feed_last(feed, offset, "</") : offset);
}

static void take_undeclared(struct reader *reader, const char *name) {
    struct place place = declarations_place(&reader->declarations);
    if (declarations_are_all(&reader->declarations)) {
        fault_set(reader->fault, FAULT_MALFORMED, place, "malformed XML: entity '%s' is not declared", name);
    } else {
        fault_set(reader->fault, FAULT_OUTSIDE, place, "entity '%s' is not declared in the document itself: outside the profile", name);
    }
}

/* Whether libxml2 may only have come to its own limit on entities in one another: heights (entity_heights.h) leave external ones out. */
static bool may_be_limit(const struct reader *reader, const parser_error *error) {
    return error->code == XML_ERR_ENTITY_LOOP && reader->declarations.loaded > 0;
}

static void take_malformed(struct reader *reader, parser_error *error) {
    struct bytes words = NO_BYTES;
    if (may_be_limit(reader, error)) {
        fault_set(reader->fault, FAULT_OUTSIDE, error_place(reader, error),
                  "an entity is in itself, or over a limit of this program: entities in one another, with external ones: outside the profile");
        return;
    }
    add_words(&words, error);
    const char *text = bytes_text(&words);
    if (words.failed) {
        out_of_memory(reader);
    }
    fault_set(reader->fault, FAULT_MALFORMED, error_place(reader, error), "malformed XML: %s", text);
    bytes_free(&words);
}

/* Whether libxml2 is at a bracket of a declaration that is over the limit. */
static bool is_too_deep(const struct reader *reader, const parser_error *error) {
    return error->code == XML_ERR_ELEMCONTENT_NOT_STARTED && *reader->feed.parser->input->cur == DEEP_BRACKET;
}

/* Whether libxml2, which is behind a system identifier, declares a parameter entity, or may do so. */
static bool declares_parameter(const xmlParserCtxt *parser) {
    static const char begin[] = "<!ENTITY";
    const xmlParserInput *input = parser->input;
    struct span read = {(const char *)input->base, (size_t)(input->cur - input->base)};
    size_t at = read.length == 0 ? 0 : read.length - 1;
    char quote = read.length == 0 ? '\0' : read.data[at];
    do {
        at -= at > 0;
    } while (at > 0 && read.data[at] != quote);
    while (at > 0 && read.data[at] != '<') {
        at--; /* the name, and a public identifier, have no such sign */
    }
    struct span rest = span_from(read, at + sizeof begin - 1);
    size_t blanks = blanks_of(rest.data, rest.length);
    return !span_begins(span_from(read, at), begin) || blanks == rest.length || rest.data[blanks] == '%';
}

/* Lets libxml2 go on behind an error of a declaration that is no fatal one in XML. */
static void pass_error(struct reader *reader) {
    reader->feed.parser->recovery = 1;
    reader->has_passed = true;
}

/* Does so behind a system identifier with a fragment (4.2.2). libxml2 drops a parameter entity with one. */
static void pass_fragment(struct reader *reader) {
    pass_error(reader);
    reader->declarations.has_dropped |= declares_parameter(reader->feed.parser);
}

/* Whether a group, or a declaration that ends in a parameter entity, begins in another text: that is a matter of validity (2.8 and 3.2.1). A declaration that
 * goes on behind the entity in which it begins breaks a rule of form (WFC: PE Between Declarations). */
static bool is_of_nesting(const struct reader *reader, const parser_error *error) {
    bool is_inside = error->code == XML_ERR_ENTITY_BOUNDARY && declarations_is_inside(&reader->declarations);
    return is_about_group(error) || is_inside;
}

/* Takes what is left of a document type from libxml2. Without memory it would look at the same blank or reference forever. */
static void stop_subset(struct reader *reader) {
    xmlParserCtxtPtr parser = reader->feed.parser;
    if (parser != NULL && parser->inSubset != 0) {
        xmlStopParser(parser);
    }
}

static void take_error(void *context, parser_error *error) {
    struct reader *reader = current;
    (void)context;
    stop_in_comment(error);
    if (is_of_validity(error) || reader->fault->kind != FAULT_NONE) {
        return;
    }
    if (error->code == XML_ERR_NO_MEMORY || reader->memory.has_failed) {
        out_of_memory(reader);
        stop_subset(reader);
    } else if (error->code == XML_ERR_UNDECLARED_ENTITY || error->code == XML_WAR_UNDECLARED_ENTITY) {
        take_undeclared(reader, error->str1 == NULL ? "" : error->str1);
    } else if (error->domain == XML_FROM_NAMESPACE && error->code == XML_NS_ERR_QNAME) {
        reader->has_bad_name = true;
        reader->is_unusual = true;
    } else if (error->domain == XML_FROM_NAMESPACE && error->code == XML_NS_ERR_ATTRIBUTE_REDEFINED) {
        reader->has_double = true;
        reader->is_unusual = true;
    } else if (reader->feed.parser->instate == XML_PARSER_PI && (error->code == XML_ERR_PEREF_NO_NAME || error->code == XML_ERR_PEREF_SEMICOL_MISSING)) {
        /* libxml2 looks for references there, and XML does not (4.4) */
        fault_set(reader->fault, FAULT_OUTSIDE, error_place(reader, error), "a percent sign in an instruction of a parameter entity: outside the profile");
    } else if (error->code == XML_ERR_INVALID_URI && declares_parameter(reader->feed.parser)) {
        reader->declarations.has_dropped = true;
    } else if (error->code == XML_ERR_URI_FRAGMENT) {
        pass_fragment(reader);
    } else if (is_of_nesting(reader, error)) {
        pass_error(reader);
    } else if (is_too_deep(reader, error)) {
        feed_refuse(&reader->feed, error_place(reader, error), "a declaration has more than %s brackets in one another", reader->feed.models.most,
                    "--max-depth");
    } else if (is_limit(error)) {
        fault_set(reader->fault, FAULT_OUTSIDE, error_place(reader, error), "%s", limit_words(error));
    } else if (is_malformed(error)) {
        take_malformed(reader, error);
    }
}

/* An error that libxml2 reports to the process, and not to the parser: there is nothing to do. */
static void ignore_error(void *context, parser_error *error) {
    (void)context;
    (void)error;
}

/* Takes an end where entities are included: their texts end what begins in them alone. */
static void take_included_end(void *context, const xmlChar *local, const xmlChar *prefix, const xmlChar *uri) {
    struct reader *reader = context;
    if (feed_is_read(&reader->feed) && reader->start.depth <= inclusion_depth(&reader->feed.inclusions)) {
        feed_refuse_unbalanced(&reader->feed);
    }
    take_end(context, local, prefix, uri);
}

static void set_handlers(xmlSAXHandler *handlers) {
    memset(handlers, 0, sizeof *handlers);
    handlers->initialized = XML_SAX2_MAGIC;
    handlers->startDocument = take_document;
    handlers->internalSubset = take_subset;
    handlers->externalSubset = take_subset_end;
    handlers->entityDecl = take_entity;
    handlers->unparsedEntityDecl = take_unparsed;
    handlers->notationDecl = take_notation;
    handlers->attributeDecl = take_attribute;
    handlers->elementDecl = take_element;
    handlers->resolveEntity = give_input;
    handlers->getEntity = give_general;
    handlers->getParameterEntity = give_parameter;
    handlers->startElementNs = take_start;
    handlers->endElementNs = take_end;
    handlers->characters = take_text;
    handlers->ignorableWhitespace = take_text;
    handlers->cdataBlock = take_section;
    handlers->processingInstruction = take_instruction;
    handlers->comment = take_comment;
    handlers->serror = take_error;
}

/* Makes the parser. It reads UTF-8, whatever the document declares. It puts the text of entities in the place of references, and opens no file: it is
 * given none but the document's own entities. */
static xmlParserCtxtPtr new_parser(struct reader *reader) {
    xmlSAXHandler handlers;
    set_handlers(&handlers);
    xmlParserCtxtPtr parser = xmlCreateIOParserCtxt(&handlers, reader, feed_read, NULL, &reader->feed, XML_CHAR_ENCODING_NONE);
    if (parser != NULL) {
        xmlCtxtUseOptions(parser, XML_PARSE_HUGE | XML_PARSE_NONET | XML_PARSE_IGNORE_ENC);
        parser->replaceEntities = 1;
        parser->encoding = xmlStrdup((const xmlChar *)"UTF-8");
        if (reader->feed.source->beside != NULL) {
            parser->input->filename = (char *)xmlPathToURI((const xmlChar *)reader->feed.source->beside);
        }
    }
    return parser;
}

/* Says whether the document was read to its end, if nothing else is known. */
static void check_end(struct reader *reader) {
    const struct feed *feed = &reader->feed;
    if (reader->memory.has_failed) {
        fault_free(reader->fault); /* what was found may come of that */
        out_of_memory(reader);
    } else if (!feed->parser->wellFormed || !feed_has_all(feed) || feed->given < feed->text.length || feed->inclusions.count > 0) {
        fault_set(reader->fault, FAULT_MALFORMED, reader->feed.place, "malformed XML: not well-formed");
    }
}

/* Reads the document to its end. */
static void read_all(struct reader *reader) {
    xmlParserCtxtPtr parser = new_parser(reader);
    if (parser == NULL) {
        out_of_memory(reader);
        return;
    }
    reader->feed.parser = parser;
    xmlParseDocument(parser);
    if (reader->sink.last != NULL) {
        reader->sink.last(reader->sink.context);
    }
    check_end(reader);
    xmlDocPtr document = parser->myDoc;
    xmlFreeParserCtxt(parser);
    xmlFreeDoc(document);
}

/* Does the same, with libxml2 made ready for it, and as it was afterwards. */
static void read_by_libxml2(struct reader *reader) {
    if (!parser_memory_prepare()) {
        out_of_memory(reader);
        return;
    }
    parser_memory_begin(&reader->memory);
    struct reader *outer = current;
    xmlStructuredErrorFunc old_report = xmlStructuredError;
    void *old_context = xmlStructuredErrorContext;
    current = reader;
    xmlSetStructuredErrorFunc(NULL, ignore_error);
    declarations_open(&reader->declarations, &reader->feed, &reader->sink);
    read_all(reader);
    declarations_free(&reader->declarations);
    xmlSetStructuredErrorFunc(old_context, old_report);
    current = outer;
    parser_memory_end(&reader->memory);
}

/* Notes that iconv reads the document. */
static void take_iconv(void *context, const char *encoding) {
    struct reader *reader = context;
    declarations_note(&reader->declarations, (struct place){1, 1}, read_by_iconv, BAD_CAST encoding);
}

/* Adds what a reference gives in a value of which libxml2 gets a part. */
static size_t expand(void *context, struct span text, struct bytes *to) {
    struct reader *reader = context;
    return declarations_expand(&reader->declarations, text, to);
}

/* The tag that libxml2 reads, or that comes next, has to be looked at. */
static void take_shortened(void *context) {
    struct reader *reader = context;
    reader->is_unusual = true;
}

/* From now on texts of entities may be included. */
static void use_inclusions(void *context) {
    struct reader *reader = context;
    reader->feed.parser->sax->endElementNs = take_included_end;
}

static void open_reader(struct reader *reader, const struct byte_source *source, const struct event_sink *sink, struct fault *fault) {
    memset(reader, 0, offsetof(struct reader, names.slots));
    reader->sink = *sink;
    reader->fault = fault;
    feed_open(&reader->feed, source, fault);
    reader->feed.before_read = before_read;
    reader->feed.shortened = take_shortened;
    reader->feed.included = use_inclusions;
    reader->feed.depth = &reader->start.depth;
    reader->feed.shortening.expand = expand;
    reader->feed.shortening.context = reader;
    reader->names.long_names = &reader->feed.shortening.names;
    reader->feed.most_depth = sink->depth == 0 ? USUAL_DEPTH : sink->depth;
#if LIBXML_VERSION < 20911
    if (reader->feed.most_depth > USUAL_DEPTH) {
        reader->feed.most_depth = USUAL_DEPTH; /* these call themselves for an element in an element */
    }
#endif
    reader->feed.models.most = reader->feed.most_depth > LEVELS_OF_LIBXML2 ? reader->feed.most_depth : LEVELS_OF_LIBXML2;
    reader->feed.by_iconv = take_iconv;
    reader->feed.most = sink->memory == 0 ? USUAL_MEMORY : sink->memory;
    reader->feed.most_attributes = sink->attributes == 0 ? USUAL_ATTRIBUTES : sink->attributes;
    reader->allowed = 1;
    if (reader->feed.most_attributes > USUAL_ATTRIBUTES) {
        uint64_t most = reader->feed.most_attributes;
        reader->allowed += most * most / USUAL_ATTRIBUTES / USUAL_ATTRIBUTES;
    }
    reader->feed.context = reader;
}

void read_events(const struct byte_source *source, const struct event_sink *sink, struct fault *fault) {
    struct reader *reader = malloc(sizeof *reader);
    if (reader == NULL) {
        fault_set(fault, FAULT_MEMORY, (struct place){0, 0}, "out of memory");
        return;
    }
    open_reader(reader, source, sink, fault);
    read_by_libxml2(reader);
    feed_close(&reader->feed);
    bytes_free(&reader->values);
    free(reader->attributes);
    free(reader->declared);
    free(reader);
}
