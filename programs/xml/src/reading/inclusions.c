#include "inclusions.h"

#include "secret.h"

#include <inttypes.h>
#include <stdio.h>
#include <stdlib.h>

enum { PIECE_BYTES = 65536 /* of a text, read at once */ };

void inclusions_free(struct inclusions *inclusions) {
    for (size_t at = 0; at < inclusions->text_count; at++) {
        bytes_free(&inclusions->texts[at].own);
        bytes_free(&inclusions->texts[at].later);
    }
    free(inclusions->texts);
    free(inclusions->open);
    free(inclusions->parts);
}

bool is_included(const struct inclusions *inclusions, const void *entity) {
    bool is_found = false;
    for (size_t at = 0; at < inclusions->count && !is_found; at++) {
        is_found = inclusions->open[at].entity == entity;
    }
    return is_found;
}

/* Makes room for one more item of this size. False: out of memory. */
static bool has_room(void **items, size_t count, size_t *capacity, size_t size) {
    if (count < *capacity) {
        return true;
    }
    size_t wanted = *capacity == 0 ? 8 : 2 * *capacity;
    void *longer = realloc(*items, wanted * size);
    if (longer != NULL) {
        *items = longer;
        *capacity = wanted;
    }
    return longer != NULL;
}

static bool has_all_room(struct inclusions *inclusions) {
    void *texts = inclusions->texts;
    void *open = inclusions->open;
    void *parts = inclusions->parts;
    bool has_texts = has_room(&texts, inclusions->text_count, &inclusions->text_capacity, sizeof *inclusions->texts);
    bool has_open = has_room(&open, inclusions->count, &inclusions->capacity, sizeof *inclusions->open);
    bool has_parts = has_room(&parts, inclusions->part_count, &inclusions->part_capacity, sizeof *inclusions->parts);
    inclusions->texts = texts;
    inclusions->open = open;
    inclusions->parts = parts;
    return has_texts && has_open && has_parts;
}

static size_t held_of(const struct included_text *text) {
    return text->own.capacity + text->later.capacity;
}

static void choose_end_name(struct inclusions *inclusions) {
    uint64_t secret[2];
    choose_secret(secret);
    snprintf(inclusions->end_name, END_NAME_BYTES, "included-%016" PRIx64, secret[0]);
}

static size_t reference_length(const struct inclusions *inclusions) {
    return strlen("&;") + strlen(inclusions->end_name);
}

bool inclusions_open(struct inclusions *inclusions, struct inclusion entity, struct included_text *text, struct included_part part) {
    if (text->own.failed || text->later.failed || !has_all_room(inclusions)) {
        return false;
    }
    if (inclusions->end_name[0] == '\0') {
        choose_end_name(inclusions);
    }
    if (inclusions->count == 0) {
        inclusions->parts[inclusions->part_count++] = part;
    }
    inclusions->included += text->rest.length + reference_length(inclusions);
    inclusions->open[inclusions->count++] = entity;
    inclusions->texts[inclusions->text_count++] = *text;
    inclusions->held += held_of(text);
    text->own = (struct bytes)NO_BYTES;
    text->later = (struct bytes)NO_BYTES;
    return true;
}

/* Notes that the reference behind the innermost text which was not read to its end is at the offset. */
static void note_end(struct inclusions *inclusions, uint64_t end) {
    size_t at = inclusions->count;
    while (at > 0 && inclusions->open[at - 1].has_end) {
        at--;
    }
    if (at > 0) {
        struct inclusion *open = &inclusions->open[at - 1];
        *open = (struct inclusion){open->entity, open->depth, true, end, inclusions->included};
    }
}

/* Adds the next piece of the text: whole characters. */
static void add_piece(struct span *rest, struct bytes *to) {
    size_t length = rest->length < PIECE_BYTES ? rest->length : PIECE_BYTES;
    while (length < rest->length && ((unsigned char)rest->data[length] & 0xC0) == 0x80) {
        length++;
    }
    bytes_add(to, rest->data, length);
    *rest = span_from(*rest, length);
}

bool inclusions_read(struct inclusions *inclusions, struct bytes *to, uint64_t begin, struct included_text *ended, uint64_t *later) {
    struct included_text *text = &inclusions->texts[inclusions->text_count - 1];
    add_piece(&text->rest, to);
    if (text->rest.length > 0) {
        return false;
    }
    note_end(inclusions, begin + to->length);
    bytes_add_byte(to, text->is_parameter ? '%' : '&');
    bytes_add_text(to, inclusions->end_name);
    bytes_add_byte(to, ';');
    *later = begin + to->length;
    bytes_add(to, text->later.data, text->later.length);
    inclusions->held -= held_of(text);
    bytes_free(&text->own);
    bytes_free(&text->later);
    *ended = *text;
    inclusions->text_count--;
    return true;
}

/* The offset of the reference behind the text of the entity; UINT64_MAX: it is not known. */
static uint64_t end_of(const struct inclusions *inclusions, const struct inclusion *open) {
    return open->has_end ? open->end + (inclusions->included - open->included) : UINT64_MAX;
}

uint64_t inclusion_end(const struct inclusions *inclusions) {
    return inclusions->count == 0 ? UINT64_MAX : end_of(inclusions, &inclusions->open[inclusions->count - 1]);
}

uint64_t included_up_to(const struct inclusions *inclusions) {
    return inclusions->count == 0 ? 0 : end_of(inclusions, &inclusions->open[0]);
}

void inclusions_close(struct inclusions *inclusions, uint64_t offset) {
    inclusions->count--;
    if (inclusions->count == 0) {
        inclusions->parts[inclusions->part_count - 1].end = offset;
    }
}

const struct included_part *included_part_at(const struct inclusions *inclusions, uint64_t offset) {
    size_t at = inclusions->part_count;
    while (at > 0 && offset < inclusions->parts[at - 1].begin) {
        at--;
    }
    return at > 0 && offset < inclusions->parts[at - 1].end ? &inclusions->parts[at - 1] : NULL;
}

void inclusions_forget(struct inclusions *inclusions, uint64_t offset) {
    size_t gone = 0;
    while (gone < inclusions->part_count && inclusions->parts[gone].end <= offset) {
        gone++;
    }
    if (gone > 0) {
        inclusions->part_count -= gone;
        memmove(inclusions->parts, inclusions->parts + gone, inclusions->part_count * sizeof *inclusions->parts);
    }
}
