#include "conversion.h"

#include <stdlib.h>
#include <string.h>

enum {
    PIECE_BYTES = 65536,  /* of PYX, handed to the sink at once */
    TEXT_CHARACTERS = 65536 /* the most characters of a text that are held */
};

struct writer {
    const struct pyx_sink *sink;
    struct fault *fault;
    struct bytes pyx; /* the lines of the piece, and after them the line of an unfinished text */
    size_t done;      /* how many of these bytes are whole lines */
    struct place *places;
    size_t count;
    size_t capacity;
    uint64_t first;
    bool has_text;
    bool is_blank;           /* the unfinished text has blanks alone */
    struct place text_place; /* where it begins, or has its first character that is no blank */
    size_t text_bytes;
    size_t text_characters; /* counted once the text has TEXT_CHARACTERS bytes */
    bool counts;
};

/* How many bytes of the XML are in the PYX as they are. */
static size_t unescaped_length(const char *text, size_t length) {
    static const bool is_escaped[256] = {['\\'] = true, ['\n'] = true, ['\t'] = true};
    size_t at = 0;
    while (at < length && !is_escaped[(unsigned char)text[at]]) {
        at++;
    }
    return at;
}

static void add_escaped(struct bytes *bytes, struct span text) {
    if (!bytes_reserve(bytes, 2 * text.length)) {
        return;
    }
    char *to = bytes->data + bytes->length;
    size_t at = 0;
    while (at < text.length) {
        size_t run = unescaped_length(text.data + at, text.length - at);
        memcpy(to, text.data + at, run);
        to += run;
        at += run;
        if (at < text.length) {
            *to++ = '\\';
            *to++ = text.data[at] == '\n' ? 'n' : text.data[at] == '\t' ? 't' : '\\';
            at++;
        }
    }
    bytes->length = (size_t)(to - bytes->data);
}

static void out_of_memory(struct writer *writer) {
    fault_set(writer->fault, FAULT_MEMORY, (struct place){0, 0}, "out of memory");
}

static bool is_good(const struct writer *writer) {
    return writer->fault->kind == FAULT_NONE;
}

/* Hands the whole lines to the sink. */
static void hand_on(struct writer *writer) {
    struct piece piece = {writer->pyx.data, writer->done, writer->places, writer->count, writer->first};
    if (writer->count == 0) {
        return;
    }
    if (!writer->sink->piece(writer->sink->context, &piece)) {
        fault_set(writer->fault, FAULT_STOPPED, (struct place){0, 0}, "stopped");
    }
    bytes_cut_front(&writer->pyx, writer->done);
    writer->done = 0;
    writer->first += writer->count;
    writer->count = 0;
}

/* Does the same unless there is a fault. */
static void flush(void *context) {
    struct writer *writer = context;
    if (is_good(writer)) {
        hand_on(writer);
    }
}

static bool has_room_for_place(struct writer *writer) {
    if (writer->count < writer->capacity) {
        return true;
    }
    size_t capacity = writer->capacity == 0 ? 512 : 2 * writer->capacity;
    struct place *places = realloc(writer->places, capacity * sizeof *places);
    if (places == NULL) {
        return false;
    }
    writer->places = places;
    writer->capacity = capacity;
    return true;
}

/* Ends the line after the whole ones. A line that is too long is outside the profile. */
static void line_ends(struct writer *writer, struct place place) {
    if (writer->pyx.length - writer->done > LINE_BYTES) {
        const char *kind = writer->pyx.data[writer->done] == 'A' ? "attribute" : "name";
        fault_set(writer->fault, FAULT_OUTSIDE, place, "%s of more than 65,536 bytes: outside the profile", kind);
        return;
    }
    bytes_add_byte(&writer->pyx, '\n');
    if (writer->pyx.failed || !has_room_for_place(writer)) {
        out_of_memory(writer);
        return;
    }
    writer->places[writer->count++] = place;
    writer->done = writer->pyx.length;
    if (writer->done >= PIECE_BYTES) {
        flush(writer);
    }
}

/* How much of an escaped text goes into one line. No escape and no character is cut. */
static size_t cut_at(const char *text, size_t length, size_t limit) {
    if (length <= limit) {
        return length;
    }
    size_t end = limit;
    while (((unsigned char)text[end] & 0xC0) == 0x80) {
        end--;
    }
    size_t begin = end;
    while (begin > 0 && text[begin - 1] == '\\') {
        begin--;
    }
    return (end - begin) % 2 == 1 ? end - 1 : end;
}

/* Ends a text that is too long for one line: it gets several. */
static void long_text_ends(struct writer *writer) {
    struct bytes text = NO_BYTES;
    bytes_add(&text, writer->pyx.data + writer->done + 1, writer->pyx.length - writer->done - 1);
    writer->pyx.length = writer->done;
    if (text.failed) {
        out_of_memory(writer);
    }
    size_t length;
    for (size_t at = 0; at < text.length && is_good(writer); at += length) {
        length = cut_at(text.data + at, text.length - at, LINE_BYTES - 1);
        bytes_add_byte(&writer->pyx, '-');
        bytes_add(&writer->pyx, text.data + at, length);
        line_ends(writer, writer->text_place);
    }
    bytes_free(&text);
}

/* Ends the unfinished text, if there is one. */
static void text_ends(struct writer *writer) {
    if (!writer->has_text) {
        return;
    }
    writer->has_text = false;
    if (writer->pyx.length - writer->done > LINE_BYTES) {
        long_text_ends(writer);
    } else {
        line_ends(writer, writer->text_place);
    }
}

static size_t characters_of(const char *text, size_t length) {
    size_t count = 0;
    for (size_t at = 0; at < length; at++) {
        count += ((unsigned char)text[at] & 0xC0) != 0x80;
    }
    return count;
}

/* How many characters the unfinished text has. These are its last bytes. */
static size_t held_characters(struct writer *writer, struct span text) {
    if (writer->counts) {
        return writer->text_characters += characters_of(text.data, text.length);
    }
    writer->counts = true;
    const char *held = writer->pyx.data + writer->done + 1;
    size_t size = writer->pyx.length - writer->done - 1;
    size_t count = characters_of(held, size);
    for (size_t at = 0; at < size; at++) {
        if (held[at] == '\\') {
            count--;
            at++;
        }
    }
    return writer->text_characters = count;
}

static void take_text(void *context, struct place place, struct span text, bool is_blank) {
    struct writer *writer = context;
    if (!writer->has_text || (writer->is_blank && !is_blank)) {
        writer->text_place = place;
    }
    writer->is_blank = is_blank && (!writer->has_text || writer->is_blank);
    if (!writer->has_text) {
        writer->has_text = true;
        writer->text_bytes = 0;
        writer->counts = false;
        bytes_add_byte(&writer->pyx, '-');
    }
    add_escaped(&writer->pyx, text);
    writer->text_bytes += text.length;
    if (writer->pyx.failed) {
        out_of_memory(writer);
    } else if (writer->text_bytes >= TEXT_CHARACTERS && held_characters(writer, text) >= TEXT_CHARACTERS) {
        text_ends(writer);
    }
}

static void add_name(struct bytes *pyx, const struct event_name *name) {
    if (name->prefix.length > 0) {
        bytes_add(pyx, name->prefix.data, name->prefix.length);
        bytes_add_byte(pyx, ':');
    }
    bytes_add(pyx, name->local.data, name->local.length);
}

static void put_attribute(struct writer *writer, const struct event_name *name, struct span value, struct place place) {
    if (is_good(writer)) {
        bytes_add_byte(&writer->pyx, 'A');
        add_name(&writer->pyx, name);
        bytes_add_byte(&writer->pyx, ' ');
        add_escaped(&writer->pyx, value);
        line_ends(writer, place);
    }
}

static void take_start(void *context, const struct start_event *start) {
    static const struct span xmlns = {"xmlns", 5};
    static const struct span none = {"", 0};
    struct writer *writer = context;
    struct place place = start->place;
    text_ends(writer);
    bytes_add_byte(&writer->pyx, '(');
    add_name(&writer->pyx, start->name);
    line_ends(writer, place);
    for (size_t at = 0; at < start->declaration_count; at++) {
        const struct event_declaration *declaration = &start->declarations[at];
        bool is_default = declaration->prefix.length == 0;
        struct event_name name = {is_default ? none : xmlns, is_default ? xmlns : declaration->prefix, none};
        put_attribute(writer, &name, declaration->uri, place);
    }
    for (size_t at = 0; at < start->attribute_count; at++) {
        put_attribute(writer, &start->attributes[at].name, start->attributes[at].value, place);
    }
}

static void take_end(void *context, struct place place, const struct event_name *name) {
    struct writer *writer = context;
    text_ends(writer);
    bytes_add_byte(&writer->pyx, ')');
    add_name(&writer->pyx, name);
    line_ends(writer, place);
}

/* An instruction vanishes. It has a line so that texts join across it. A long line is cut. */
static void take_instruction(void *context, struct place place, struct span target, struct span data) {
    struct writer *writer = context;
    text_ends(writer);
    size_t begin = writer->pyx.length;
    bytes_add_byte(&writer->pyx, '?');
    add_escaped(&writer->pyx, target);
    if (data.length > 0) {
        bytes_add_byte(&writer->pyx, ' ');
        add_escaped(&writer->pyx, data);
    }
    if (!writer->pyx.failed) {
        writer->pyx.length = begin + cut_at(writer->pyx.data + begin, writer->pyx.length - begin, LINE_BYTES);
    }
    line_ends(writer, place);
}

static void take_note(void *context, struct place place, const char *what) {
    const struct writer *writer = context;
    writer->sink->note(writer->sink->context, place, what);
}

void convert(const struct byte_source *source, const struct pyx_sink *sink, struct fault *fault) {
    struct writer writer = {.sink = sink, .fault = fault, .pyx = NO_BYTES, .first = 1};
    struct event_sink events = {.start = take_start,
                                .text = take_text,
                                .end = take_end,
                                .instruction = take_instruction,
                                .note = take_note,
                                .flush = flush,
                                .context = &writer};
    read_events(source, &events, fault);
    /* what comes before a fault of the document may have another one, which is the first then */
    if (fault->kind <= FAULT_OUTSIDE) {
        hand_on(&writer);
    }
    bytes_free(&writer.pyx);
    free(writer.places);
}
