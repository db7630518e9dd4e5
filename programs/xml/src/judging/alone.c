#include "alone.h"

#include "telling.h"
#include "text_table.h"
#include "xml_names.h"

#include <stdio.h>
#include <stdlib.h>

enum {
    ELEMENT_BYTES = 67108864, /* of one element, at most */
    TEXT_BYTES = 512,         /* kept of a text beside child elements, and told of any */
    KEPT_BYTES = 65536        /* room that is used again */
};

/* ---- what is in an element */

void element_begin(struct element *element, const struct start_event *start, struct mark mark) {
    if (element->log.bytes.capacity > KEPT_BYTES || element->text.capacity > KEPT_BYTES || element->text.failed) {
        event_log_free(&element->log);
        bytes_free(&element->text);
    }
    event_log_clear(&element->log);
    bytes_clear(&element->text);
    element->log.most = ELEMENT_BYTES;
    element->count = 0;
    element->place = mark.place;
    element->number = mark.number;
    element->has_declarations = start->declaration_count > 0;
    element->has_children = false;
    element->is_empty = true;
    element->is_begun = false;
    element->is_cut = false;
    element->is_left = false;
    element->is_done = false;
    event_log_declarations(&element->log, start);
    event_log_start(&element->log, start);
    element->failed = element->log.is_full;
}

static size_t blanks_of(struct span text) {
    size_t at = 0;
    while (at < text.length && is_blank_byte(text.data[at])) {
        at++;
    }
    return at;
}

/* The length of the beginning of a text that has so many bytes at most, and no part of a character. */
static size_t cut_length(struct span text, size_t most) {
    size_t length = text.length < most ? text.length : most;
    while (length > 0 && length < text.length && ((unsigned char)text.data[length] & 0xC0) == 0x80) {
        length--;
    }
    return length;
}

/* Keeps what is shown of a text beside child elements. */
static void keep_beginning(struct element *element, struct span text) {
    size_t begin = element->text.length == 0 ? blanks_of(text) : 0;
    struct span left = {text.data + begin, text.length - begin};
    size_t length = element->is_cut ? 0 : cut_length(left, TEXT_BYTES - element->text.length);
    element->is_cut |= length < left.length;
    bytes_add(&element->text, left.data, length);
}

void element_take_text(struct element *element, struct place place, struct span text, bool is_blank) {
    element->is_empty = false;
    if (!element->is_begun) {
        element->text_place = place;
        element->is_begun = !is_blank;
    }
    if (element->has_children) {
        keep_beginning(element, text);
    } else {
        bytes_add(&element->text, text.data, text.length);
    }
    element->failed |= element->text.failed;
}

static void add_mark(struct element *element, struct mark mark) {
    element->failed |= !items_grow((void **)&element->marks, element->count, &element->capacity, sizeof mark);
    if (!element->failed) {
        element->marks[element->count++] = mark;
    }
}

/* Puts the text before a child into the list. */
static void put_text(struct element *element) {
    struct bytes *text = &element->text;
    if (element->is_begun) {
        size_t begin = blanks_of((struct span){text->data, text->length});
        struct span shown = {text->data + begin, text->length - begin};
        shown.length = cut_length(shown, TEXT_BYTES);
        event_log_text(&element->log, shown);
        add_mark(element, (struct mark){element->text_place, 0});
    }
    text->length = 0;
    element->is_begun = false;
    element->is_cut = false;
}

void element_take_child(struct element *element, const struct event_name *name, struct mark mark) {
    const struct start_event child = {.name = name};
    put_text(element);
    element->has_children = true;
    element->is_empty = false;
    event_log_start(&element->log, &child);
    event_log_end(&element->log);
    add_mark(element, mark);
    element->failed |= element->log.is_full;
}

void element_free(struct element *element) {
    event_log_free(&element->log);
    bytes_free(&element->text);
    free(element->marks);
}

size_t element_held(const struct element *element) {
    return element->log.bytes.length + element->text.length + element->count * sizeof *element->marks;
}

/* ---- whether it is good */

enum { ROOT_BYTES = 16 };

/* The name of the root around the element. */
static struct event_name root_of(const struct alone *alone, char room[ROOT_BYTES]) {
    size_t length = (size_t)snprintf(room, ROOT_BYTES, "k%u", (unsigned)alone->member);
    return (struct event_name){{"", 0}, {room, length}, {"", 0}};
}

/* Begins a document with the root. Its number is never that of a fault. */
static int32_t begin(const struct alone *alone) {
    char room[ROOT_BYTES];
    struct event_name root = root_of(alone, room);
    int32_t status = rncv_events_begin(&alone->judge->schema);
    return status != RNCV_DONE ? status : library_start(&alone->judge->schema, &alone->judge->room, UINT64_MAX, &root, NULL, 0);
}

/* Passes an event of the list. A start or an end gets the next number. */
static int32_t pass(const struct alone *alone, const struct log_reader *reader, const struct logged *event, uint64_t *number) {
    rncv_schema *schema = &alone->judge->schema;
    if (event->kind == LOGGED_START) {
        size_t count = alone->has_attributes ? event->count : 0;
        return library_start(schema, &alone->judge->room, ++*number, &event->name, reader->attributes, count);
    }
    if (event->kind == LOGGED_TEXT) {
        return library_text(schema, event->text);
    }
    return event->kind == LOGGED_END ? rncv_events_end(schema, ++*number) : RNCV_DONE;
}

static const struct element *own_of(const struct alone *alone) {
    return &alone->elements[alone->depth - 1];
}

/* Passes the text behind the last child, if there is one. */
static int32_t pass_text(const struct alone *alone) {
    const struct bytes *text = &own_of(alone)->text;
    return text->length == 0 ? RNCV_DONE : library_text(&alone->judge->schema, (struct span){text->data, text->length});
}

bool alone_find(const struct alone *alone, uint64_t *number) {
    struct log_reader reader;
    struct logged event;
    uint64_t passed = 0;
    rncv_schema *schema = &alone->judge->schema;
    int32_t status = begin(alone);
    log_reader_open(&reader, &own_of(alone)->log, own_of(alone)->log.bytes.length);
    while (status == RNCV_DONE && log_reader_next(&reader, &event)) {
        status = pass(alone, &reader, &event, &passed);
    }
    status = status == RNCV_DONE ? pass_text(alone) : status;
    status = status == RNCV_DONE ? rncv_events_end(schema, ++passed) : status;
    status = status == RNCV_DONE ? rncv_events_invalid_since(schema, number) : status;
    bool is_known = status == RNCV_DONE && !reader.failed && *number != UINT64_MAX;
    log_reader_close(&reader);
    return is_known;
}

/* ---- what is wrong */

/* An element that is judged again, up to the start or end that is wrong. */
struct alone_telling {
    const struct alone *alone;
    struct log_reader reader;
    struct logged event;     /* the last one */
    struct logged start;     /* that of the element */
    uint64_t number;         /* of starts and ends that were passed */
    uint32_t marks;          /* of children and texts that were passed */
    uint64_t child;          /* the number of the last child */
    uint32_t member;         /* what the element is judged as, at its own start */
    struct finding found;
};

/* Takes the declarations of an element that is open, at this depth. False: memory ran out. */
static bool enter_element(struct scope *scope, const struct element *element, size_t depth) {
    struct log_reader reader;
    struct logged event;
    log_reader_open(&reader, &element->log, element->has_declarations ? element->log.bytes.length : 0);
    while (log_reader_next(&reader, &event) && event.kind == LOGGED_DECLARATION) {
        scope_declare(scope, &(struct event_declaration){event.name.prefix, event.name.uri}, depth);
    }
    bool is_good = !reader.failed && !scope->failed;
    log_reader_close(&reader);
    return is_good;
}

/* Takes those of the elements that are open. False: memory ran out. */
static bool enter_all(const struct alone *alone) {
    struct scope *scope = &alone->judge->scope;
    bool is_good = true;
    scope_clear(scope);
    for (size_t at = 0; at < alone->depth && is_good; at++) {
        is_good = enter_element(scope, &alone->elements[at], at + 1);
    }
    return is_good;
}

/* Keeps where the event is. */
static void keep_place(struct alone_telling *telling, const struct logged *event) {
    const struct element *own = own_of(telling->alone);
    struct finding *found = &telling->found;
    bool is_own = event->kind == LOGGED_START && telling->number == 0;
    if (event->kind == LOGGED_TEXT) {
        found->has_text = true;
        found->text_place = own->marks[telling->marks++].place;
        bytes_clear(&found->text);
        bytes_add(&found->text, event->text.data, event->text.length);
        return;
    }
    if (event->kind == LOGGED_START) {
        found->place = is_own ? own->place : own->marks[telling->marks].place;
        telling->child = is_own ? 0 : own->marks[telling->marks].number;
        telling->marks += !is_own;
    }
}

/* Passes the next event up to the one with this number. False: that one was passed, or something failed. */
static bool go_on(struct alone_telling *telling, uint64_t number) {
    struct logged *event = &telling->event;
    if (telling->number == number || !log_reader_next(&telling->reader, event)) {
        return false;
    }
    if (telling->number > 0 && event->kind == LOGGED_END) {
        telling->found.has_text = false;
    }
    keep_place(telling, event);
    telling->start = telling->number == 0 ? *event : telling->start;
    return pass(telling->alone, &telling->reader, event, &telling->number) == RNCV_DONE;
}

/* Passes the end of the element, and the text before it. */
static bool pass_end(struct alone_telling *telling) {
    const struct element *own = own_of(telling->alone);
    struct finding *found = &telling->found;
    if (own->text.length > 0) {
        size_t begin = blanks_of((struct span){own->text.data, own->text.length});
        struct span shown = {own->text.data + begin, own->text.length - begin};
        size_t length = cut_length(shown, TEXT_BYTES);
        found->has_text = own->is_begun;
        found->is_cut = own->is_cut || length < shown.length;
        found->text_place = own->text_place;
        bytes_clear(&found->text);
        bytes_add(&found->text, shown.data, length);
    }
    found->is_end = true;
    found->place = own->is_empty ? own->place : telling->alone->end;
    return pass_text(telling->alone) == RNCV_DONE && rncv_events_end(&telling->alone->judge->schema, ++telling->number) == RNCV_DONE;
}

/* Asks what the tag could have had as one of the other elements that the element may be. False: memory ran out. */
static bool ask_others(struct alone_telling *telling, size_t count) {
    struct judge *judge = telling->alone->judge;
    struct alone other = *telling->alone;
    bool is_good = true;
    for (uint32_t at = 0; at < judge->declared.only_count && is_good; at++) {
        other.member = judge->declared.only[at];
        is_good = other.member == telling->member ||
                  (begin(&other) == RNCV_DONE && finding_ask_tag(&telling->found, &judge->schema, &judge->room, telling->reader.attributes, count));
    }
    return is_good;
}

/* How far a tag is taken: up to an attribute, or further if only its value is wrong, or to its end. */
static uint64_t rank_of(const rncv_reason *reason) {
    bool is_attribute = reason->kind == RNCV_REASON_ATTRIBUTE || reason->kind == RNCV_REASON_VALUE;
    uint64_t rank = 2 * reason->attribute + (reason->kind == RNCV_REASON_VALUE ? 2 : 1);
    return is_attribute ? rank : reason->kind == RNCV_REASON_MISSING ? UINT64_MAX : 0;
}

/* Begins again as the one of the elements that the element may be which takes most of its tag, and passes that. False: memory ran out. */
static bool begin_best(struct alone_telling *telling) {
    const struct alone *alone = telling->alone;
    const struct declared *declared = &alone->judge->declared;
    const struct event_name *name = &telling->event.name;
    struct call_room *room = &alone->judge->room;
    struct alone one = *alone;
    uint64_t most = 0;
    size_t count = alone->has_attributes ? telling->event.count : 0;
    bool is_good = call_room_fill(room, telling->reader.attributes, count);
    for (uint32_t at = 0; at < declared->only_count && is_good; at++) {
        rncv_reason reason;
        one.member = declared->only[at];
        is_good = begin(&one) == RNCV_DONE && library_start_reason(&alone->judge->schema, name, room->attributes, count, &reason) == RNCV_DONE;
        if (is_good && rank_of(&reason) > most) {
            most = rank_of(&reason);
            telling->member = one.member;
        }
    }
    one.member = telling->member;
    telling->number = 0;
    return is_good && begin(&one) == RNCV_DONE && pass(&one, &telling->reader, &telling->event, &telling->number) == RNCV_DONE;
}

/* Passes all up to the start or end with this number, and notes what is there. False: memory ran out, or it is the end of a child, which has nothing in it. */
static bool find_again(struct alone_telling *telling, uint64_t number) {
    struct finding *found = &telling->found;
    struct judge *judge = telling->alone->judge;
    bool is_good = enter_all(telling->alone) && begin(telling->alone) == RNCV_DONE;
    while (is_good && go_on(telling, number)) {
    }
    bool is_start = telling->number == number && telling->event.kind == LOGGED_START;
    bool is_end = is_good && telling->number + 1 == number && pass_end(telling);
    if (number == 1 && is_start && !begin_best(telling)) {
        return false;
    }
    if (telling->reader.failed || (!is_start && !is_end)) {
        return false;
    }
    found->is_there = true;
    finding_name(found, is_start ? &telling->event.name : &telling->start.name);
    if (is_start && number > 1) {
        add_written(&found->around, &telling->start.name);
    }
    size_t count = is_start && telling->alone->has_attributes ? telling->event.count : 0;
    bool is_told = finding_ask(found, &judge->schema, &judge->room, telling->reader.attributes, count) && (number != 1 || ask_others(telling, count));
    return is_told && !found->text.failed && !found->around.failed;
}

static bool is_before(struct place place, struct place limit) {
    return limit.line == 0 || place.line < limit.line || (place.line == limit.line && place.column < limit.column);
}

uint64_t alone_tell(const struct alone *alone, uint64_t number, struct place limit, struct answer *answer) {
    struct alone_telling telling;
    memset(&telling, 0, sizeof telling);
    telling.alone = alone;
    telling.member = alone->member;
    log_reader_open(&telling.reader, &own_of(alone)->log, own_of(alone)->log.bytes.length);
    if (find_again(&telling, number) && is_before(telling.found.place, limit)) {
        answer->verdict = VERDICT_INVALID;
        bytes_add_text(&answer->message, "hint");
        tell(alone->judge, &telling.found, answer);
    }
    log_reader_close(&telling.reader);
    finding_free(&telling.found);
    return answer->reason == REASON_ELEMENT ? telling.child : 0;
}
