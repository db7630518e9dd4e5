#include "event_log.h"

#include <stdlib.h>

/* How a URI is written: none, the last one, or its length plus this number, and its bytes. */
enum { URI_NONE, URI_LAST, URI_NEW };

enum { NUMBER_BYTES = 10, NAME_NUMBERS = 3 };

/* These write where there is room, and return where the next byte goes. A number has seven bits in a byte. */
static char *put_number(char *to, size_t number) {
    while (number >= 0x80) {
        *to++ = (char)(number | 0x80);
        number >>= 7;
    }
    *to++ = (char)number;
    return to;
}

static char *put_bytes(char *to, struct span span) {
    if (span.length > 0) {
        memcpy(to, span.data, span.length);
    }
    return to + span.length;
}

static char *put_span(char *to, struct span span) {
    return put_bytes(put_number(to, span.length), span);
}

/* Writes the URI of a name, which mostly is none or the last one. */
static char *put_uri(struct event_log *log, char *to, struct span uri) {
    if (uri.length == 0) {
        return put_number(to, URI_NONE);
    }
    if (uri.length == log->uri_length && memcmp(log->bytes.data + log->uri, uri.data, uri.length) == 0) {
        return put_number(to, URI_LAST);
    }
    to = put_number(to, uri.length + URI_NEW);
    log->uri = (size_t)(to - log->bytes.data);
    log->uri_length = uri.length;
    return put_bytes(to, uri);
}

static char *put_name(struct event_log *log, char *to, const struct event_name *name) {
    to = put_span(to, name->prefix);
    to = put_span(to, name->local);
    return put_uri(log, to, name->uri);
}

static size_t length_of(const struct event_name *name) {
    return NAME_NUMBERS * NUMBER_BYTES + name->prefix.length + name->local.length + name->uri.length;
}

/* Makes room for an event of at most so many bytes, and returns where it goes. NULL: it does not fit, and nothing more is kept. */
static char *room_for(struct event_log *log, size_t length) {
    log->is_full |= log->bytes.failed || length > log->most - log->bytes.length || !bytes_reserve(&log->bytes, length);
    return log->is_full ? NULL : log->bytes.data + log->bytes.length;
}

static void put_end(struct event_log *log, const char *end) {
    log->bytes.length = (size_t)(end - log->bytes.data);
}

void event_log_add_start(struct event_log *log, const struct start_event *start) {
    size_t length = 1 + NUMBER_BYTES + length_of(start->name);
    for (size_t at = 0; at < start->attribute_count && length <= log->most; at++) {
        length += length_of(&start->attributes[at].name) + NUMBER_BYTES + start->attributes[at].value.length;
    }
    char *to = room_for(log, length);
    if (to == NULL) {
        return;
    }
    *to++ = LOGGED_START;
    to = put_name(log, to, start->name);
    to = put_number(to, start->attribute_count);
    for (size_t at = 0; at < start->attribute_count; at++) {
        to = put_name(log, to, &start->attributes[at].name);
        to = put_span(to, start->attributes[at].value);
    }
    put_end(log, to);
}

void event_log_add_declarations(struct event_log *log, const struct start_event *start) {
    for (size_t at = 0; at < start->declaration_count; at++) {
        const struct event_declaration *declaration = &start->declarations[at];
        struct event_name name = {declaration->prefix, {"", 0}, declaration->uri};
        char *to = room_for(log, 1 + length_of(&name));
        if (to == NULL) {
            return;
        }
        *to++ = LOGGED_DECLARATION;
        put_end(log, put_name(log, to, &name));
    }
}

void event_log_add_text(struct event_log *log, struct span text) {
    char *to = room_for(log, 1 + NUMBER_BYTES + text.length);
    if (to != NULL) {
        *to++ = LOGGED_TEXT;
        put_end(log, put_span(to, text));
    }
}

void event_log_add_end(struct event_log *log) {
    char *to = room_for(log, 1);
    if (to != NULL) {
        *to++ = LOGGED_END;
        put_end(log, to);
    }
}

void event_log_clear(struct event_log *log) {
    if (log->bytes.failed) { /* what could not grow would stay so */
        bytes_free(&log->bytes);
    }
    bytes_clear(&log->bytes);
    log->uri_length = 0;
    log->is_full = false;
}

void event_log_free(struct event_log *log) {
    bytes_free(&log->bytes);
}

void log_reader_open(struct log_reader *reader, const struct event_log *log, size_t length) {
    memset(reader, 0, sizeof *reader);
    reader->left = (struct span){log->bytes.data, length};
}

static size_t number_of(struct log_reader *reader) {
    size_t number = 0;
    unsigned shift = 0;
    unsigned char byte;
    do {
        byte = (unsigned char)*reader->left.data++;
        reader->left.length--;
        number |= (size_t)(byte & 0x7F) << shift;
        shift += 7;
    } while (byte >= 0x80);
    return number;
}

static struct span bytes_of(struct log_reader *reader, size_t length) {
    struct span span = {reader->left.data, length};
    reader->left = (struct span){reader->left.data + length, reader->left.length - length};
    return span;
}

static struct span span_of(struct log_reader *reader) {
    size_t length = number_of(reader);
    return bytes_of(reader, length);
}

static struct span uri_of(struct log_reader *reader) {
    size_t number = number_of(reader);
    if (number == URI_NONE) {
        return (struct span){"", 0};
    }
    reader->uri = number == URI_LAST ? reader->uri : bytes_of(reader, number - URI_NEW);
    return reader->uri;
}

static struct event_name name_of(struct log_reader *reader) {
    struct event_name name;
    name.prefix = span_of(reader);
    name.local = span_of(reader);
    name.uri = uri_of(reader);
    return name;
}

static bool has_room(struct log_reader *reader, size_t count) {
    if (count <= reader->capacity) {
        return true;
    }
    struct event_attribute *longer = realloc(reader->attributes, 2 * count * sizeof *longer);
    if (longer == NULL) {
        reader->failed = true;
        return false;
    }
    reader->attributes = longer;
    reader->capacity = 2 * count;
    return true;
}

/* Reads the start of an element. False: out of memory. */
static bool read_start(struct log_reader *reader, struct logged *event) {
    event->name = name_of(reader);
    event->count = number_of(reader);
    if (!has_room(reader, event->count)) {
        return false;
    }
    for (size_t at = 0; at < event->count; at++) {
        reader->attributes[at].name = name_of(reader);
        reader->attributes[at].value = span_of(reader);
    }
    return true;
}

bool log_reader_next(struct log_reader *reader, struct logged *event) {
    if (reader->left.length == 0 || reader->failed) {
        return false;
    }
    event->kind = (enum logged_kind)*bytes_of(reader, 1).data;
    if (event->kind == LOGGED_START) {
        return read_start(reader, event);
    }
    if (event->kind == LOGGED_TEXT) {
        event->text = span_of(reader);
    } else if (event->kind == LOGGED_DECLARATION) {
        event->name = name_of(reader);
    }
    return true;
}

void log_reader_close(struct log_reader *reader) {
    free(reader->attributes);
}
