#include "sections.h"

#include "xml_names.h"

#ifndef UNCUT_BYTES
#define UNCUT_BYTES 1048576 /* of a section, before it is cut */
#endif

enum {
    TRIED_BYTES = 64, /* where it may be cut */
    BEFORE_CUT = 2    /* bytes that have to be known there, since all but the last one of an end may be before a cut */
};

/* How sections begin and end, how libxml2 gets the rest of one, and the byte by which markup_scan.h knows the kind. */
static const struct section_kind {
    char begin[10], end[4], again[10];
    char kind;
} kinds[] = {{"<![CDATA[", "]]>", "<![CDATA[", ']'}, {"<!--", "-->", "<!--", '-'}, {"<?", "?>", "<?x ", '?'}};

/* The kind of the section at the start of a text, or NULL. The XML declaration is none. */
static const struct section_kind *kind_of(struct span text) {
    const struct section_kind *found = NULL;
    bool is_declaration = span_begins(text, "<?xml") && text.length > 5 && is_blank_byte(text.data[5]);
    for (size_t at = 0; at < sizeof kinds / sizeof *kinds && found == NULL; at++) {
        found = span_begins(text, kinds[at].begin) ? &kinds[at] : NULL;
    }
    return is_declaration ? NULL : found;
}

/* Whether the end of the section is in a text. */
static bool has_end(const struct section *section, struct span text) {
    bool is_found = false;
    const char *at = memchr(text.data, '>', text.length);
    while (at != NULL && !is_found) {
        size_t length = strlen(section->kind->end);
        size_t before = (size_t)(at + 1 - text.data);
        is_found = before >= length && memcmp(at + 1 - length, section->kind->end, length) == 0;
        at = memchr(at + 1, '>', text.length - before);
    }
    return is_found;
}

/* Looks where the data of an instruction begin, from what was searched on. */
static void look_for_data(struct section *section, struct span text) {
    for (size_t at = 0; at < text.length && section->data == UINT64_MAX; at++) {
        bool is_blank = is_blank_byte(text.data[at]);
        section->data = section->has_target && !is_blank ? section->searched + at : UINT64_MAX;
        section->has_target |= is_blank;
    }
}

void section_look(struct section *section, uint64_t markup, struct span text, uint64_t begin) {
    bool is_same = section->is_continued || section->is_cut || (section->begin == markup && section->searched > 0);
    if (!is_same) {
        section->kind = markup >= begin ? kind_of(span_from(text, (size_t)(markup - begin))) : NULL;
        section->begin = markup;
        section->content = markup + (section->kind == NULL ? 0 : strlen(section->kind->begin));
        section->searched = section->content;
        section->has_end = false;
        section->has_target = false;
        section->data = section->kind != NULL && section->kind->kind == '?' ? UINT64_MAX : section->content;
    }
    if (section->kind == NULL || section->has_end) {
        return;
    }
    if (section->data == UINT64_MAX && section->searched >= begin) {
        look_for_data(section, span_from(text, (size_t)(section->searched - begin)));
    }
    uint64_t first = section->searched >= section->content + sizeof section->kind->end ? section->searched - sizeof section->kind->end : section->content;
    section->has_end = first < begin || has_end(section, span_from(text, (size_t)(first - begin)));
    section->searched = begin + text.length;
}

bool section_is_read(const struct section *section, uint64_t markup, char *kind) {
    bool is_read = section->kind != NULL && (section->is_continued || section->is_cut || section->begin == markup);
    *kind = is_read ? section->kind->kind : '\0';
    return is_read;
}

void section_pass(struct section *section, uint64_t offset) {
    if (section->kind != NULL && section->data == UINT64_MAX) {
        section->searched = offset;
        section->content = offset;
    }
}

/* Whether the end is directly before the place. */
static bool is_behind(struct span text, size_t at, const char *end) {
    size_t length = strlen(end);
    return at >= length && memcmp(text.data + at - length, end, length) == 0;
}

/* Whether the end begins before the place and ends behind it, or may do so, since not all of it is known. */
static bool may_be_over(struct span text, size_t at, const char *end) {
    size_t length = strlen(end);
    bool may_be = false;
    for (size_t before = 1; before < length && before <= at && !may_be; before++) {
        struct span rest = span_from(text, at);
        size_t known = rest.length < length - before ? rest.length : length - before;
        may_be = memcmp(text.data + at - before, end, before) == 0 && memcmp(rest.data, end + before, known) == 0;
    }
    return may_be;
}

/* Whether the section may be cut at the place, behind at least two bytes that are known. `-` before the end of a comment is a fault (XML 1.0, 2.5). */
static bool may_cut(const struct section *section, struct span text, size_t at) {
    bool is_inside = ((unsigned char)text.data[at] & 0xC0) == 0x80;
    bool is_before_end = section->kind->kind == '-' && text.data[at - 1] == '-';
    return !is_inside && !is_before_end && !may_be_over(text, at, section->kind->end);
}

size_t section_cut_in(const struct section *section, uint64_t offset, struct span text, size_t given, size_t count) {
    bool is_open = section->kind != NULL && !section->has_end && !section->is_cut;
    size_t found = SIZE_MAX;
    if (!is_open || offset <= section->data || offset < section->begin + UNCUT_BYTES || given < BEFORE_CUT) {
        return SIZE_MAX;
    }
    for (size_t at = 0; at < count && at < TRIED_BYTES && found == SIZE_MAX; at++) {
        if (is_behind(text, given + at, section->kind->end)) {
            return SIZE_MAX; /* the section has ended */
        }
        found = may_cut(section, text, given + at) ? at : SIZE_MAX;
    }
    return found;
}

size_t section_cut(struct section *section, char *text, size_t length, size_t at, uint64_t offset) {
    size_t end = strlen(section->kind->end);
    size_t again = strlen(section->kind->again);
    memmove(text + at + end + again, text + at, length - at);
    memcpy(text + at, section->kind->end, end);
    memcpy(text + at + end, section->kind->again, again);
    section->begin = offset + at;
    section->content = section->begin;
    section->data = section->begin;
    section->is_cut = true;
    return end + again;
}

bool section_is_part(const struct section *section, uint64_t offset, uint64_t *skew) {
    size_t end = section->is_cut ? strlen(section->kind->end) : 0;
    bool is_part = section->is_cut && offset == section->begin + end;
    *skew -= is_part ? end : 0;
    return is_part;
}

void section_begins_again(struct section *section, bool is_part, uint64_t *skew) {
    section->is_continued = is_part;
    if (is_part) {
        section->is_cut = false;
        *skew -= strlen(section->kind->again);
    }
}
