#include "shortening.h"

#include "entity_text.h"
#include "xml_names.h"

enum { BEFORE_CUT = 2 /* bytes that are looked at before a cut of a system identifier */ };

void shortening_free(struct shortening *shortening) {
    bytes_free(&shortening->text);
    bytes_free(&shortening->whole);
    left_out_free(&shortening->left);
    long_uris_free(&shortening->uris);
    long_names_free(&shortening->names);
}

static bool is_of_value(enum run_kind kind) {
    return kind == RUN_VALUE || kind == RUN_ENTITY;
}

static bool is_of_identifier(enum run_kind kind) {
    return kind == RUN_PUBLIC || kind == RUN_SYSTEM;
}

/* Looks at the text up to where a run ends, and keeps that of a name. */
static size_t look(struct shortening *shortening, struct span text) {
    uint64_t before = shortening->scan.looked;
    size_t length = runs_look(&shortening->scan, text);
    const struct run_scan *scan = &shortening->scan;
    if (scan->kind == RUN_NAME) {
        if (scan->run == before) {
            bytes_clear(&shortening->text);
        }
        bytes_add(&shortening->text, text.data, length);
    } else if (is_of_identifier(scan->kind) && scan->run == scan->looked) {
        shortening->identifier = scan->run;
    }
    return length;
}

uint64_t shortening_behind(const struct shortening *shortening, uint64_t markup) {
    bool is_known = shortening->markup == markup && shortening->scan.behind > markup;
    return is_known ? shortening->scan.behind : markup;
}

/* Whether a byte is inside a character, and not its first one. */
static bool is_inside(char byte) {
    return ((unsigned char)byte & 0xC0) == 0x80;
}

static uint64_t later(uint64_t one, uint64_t other) {
    return one > other ? one : other;
}

/* The offset from which on libxml2 need not get the run. */
static uint64_t enough_of(const struct shortening *shortening, uint64_t offset, size_t held) {
    const struct run_scan *scan = &shortening->scan;
    if (is_of_value(scan->kind)) {
        return held < LONGEST_HELD ? UINT64_MAX : later(scan->run + KEPT_BYTES, offset);
    }
    if (is_of_identifier(scan->kind)) {
        return later(later(shortening->identifier + LONGEST_NAME, scan->run), offset);
    }
    uint64_t longest = scan->run + LONGEST_NAME;
    return scan->kind == RUN_NONE ? UINT64_MAX : scan->kind == RUN_NAME ? longest : later(longest, offset);
}

/* The place of the character in which the byte is; that of the next one if it begins before the text. */
static size_t character_at(struct span text, size_t at) {
    while (at > 0 && is_inside(text.data[at])) {
        at--;
    }
    while (at < text.length && is_inside(text.data[at])) {
        at++;
    }
    return at;
}

/* Stops in the run, behind so many bytes of the text that begins at the offset. */
static void stop(struct shortening *shortening, uint64_t offset) {
    struct run_scan *scan = &shortening->scan;
    scan->looked = offset;
    if (scan->kind == RUN_NAME && !shortening->text.failed) {
        shortening->text.length = (size_t)(offset - scan->run);
    } else {
        bytes_clear(&shortening->text);
    }
}

void shortening_begin_blanks(struct shortening *shortening, uint64_t offset) {
    struct run_scan *scan = &shortening->scan;
    runs_restart(scan, offset);
    scan->run = offset;
    scan->kind = RUN_BLANKS;
    shortening->markup = UINT64_MAX;
}

void shortening_look_again(struct shortening *shortening) {
    runs_restart(&shortening->scan, 0);
    shortening->markup = UINT64_MAX;
}

bool shortening_is_behind_attribute(const struct shortening *shortening, uint64_t markup, uint64_t offset) {
    const struct run_scan *scan = &shortening->scan;
    return shortening->markup == markup && scan->looked == offset && scan->part == PART_TAG && scan->quote == '\0' && scan->kind == RUN_NONE;
}

void shortening_pass_attribute(struct shortening *shortening, size_t length) {
    shortening->scan.looked += length;
}

void shortening_pass_choices(struct shortening *shortening, uint64_t markup, uint64_t offset) {
    runs_begin_list(&shortening->scan, offset);
    shortening->markup = markup;
    bytes_clear(&shortening->text);
}

size_t shortening_most(const struct shortening *shortening, uint64_t offset, size_t most) {
    uint64_t cut = shortening->scan.run + LONGEST_NAME;
    bool is_at_end = shortening->scan.kind == RUN_NAME && cut + 2 * IN_PLACE_BYTES >= offset + most && cut < offset + most + 2 * IN_PLACE_BYTES;
    return is_at_end && most > 8 * IN_PLACE_BYTES ? most - 5 * IN_PLACE_BYTES : most;
}

/* The place of `%41` in a system identifier if the place is inside of it, and it is in the run that begins at `run`, or the place itself. Of a part of `%41`
 * libxml2 would say that it is no URI. */
static size_t before_escape(struct span text, size_t run, size_t at) {
    size_t found = at;
    for (size_t before = 1; before <= BEFORE_CUT && before <= at && at - before >= run; before++) {
        found = text.data[at - before] == '%' ? at - before : found;
    }
    return found;
}

/* The place in the next bytes at which a run is cut that libxml2 need not get from the offset on. */
static size_t cut_at(const struct run_scan *scan, const struct offered *offered, uint64_t enough) {
    size_t cut = character_at(offered->next, (size_t)(enough - offered->offset));
    size_t run = scan->run > offered->offset ? (size_t)(scan->run - offered->offset) : 0;
    return scan->kind == RUN_SYSTEM ? before_escape(offered->next, run, cut) : cut;
}

/* Where the run is cut; SIZE_MAX: it is not. */
static size_t cut_of(const struct shortening *shortening, const struct offered *offered) {
    const struct run_scan *scan = &shortening->scan;
    uint64_t offset = offered->offset;
    uint64_t enough = enough_of(shortening, offset, offered->held);
    enough = scan->kind == RUN_SYSTEM ? later(enough, offset + BEFORE_CUT) : enough; /* so that it is known what is before */
    bool is_there = enough >= offset && enough < scan->looked && enough - offset < offered->next.length;
    size_t cut = is_there ? cut_at(scan, offered, enough) : SIZE_MAX;
    bool is_moved = scan->kind == RUN_NAME && offset + cut > enough; /* a name is always cut at the same place */
    return is_there && !is_moved && offset + cut < scan->looked ? cut : SIZE_MAX;
}

/* Writes spaces in the place of other blanks from `begin` on, as libxml2 does in values. */
static void normalize(struct bytes *text, size_t begin) {
    for (size_t at = begin; at < text->length; at++) {
        text->data[at] = is_blank_byte(text->data[at]) ? ' ' : text->data[at];
    }
}

size_t shortening_leave_out(struct shortening *shortening, struct span text) {
    struct run_scan *scan = &shortening->scan;
    size_t run = run_length(scan, text);
    size_t kept = scan->kind == RUN_ZEROS ? KEPT_ZEROS : 0;
    size_t length = run > kept ? run - kept : 0;
    size_t begin = shortening->text.length;
    if (scan->kind == RUN_NAME || is_of_value(scan->kind)) {
        bytes_add(&shortening->text, text.data, length);
    }
    if (scan->kind == RUN_VALUE) {
        normalize(&shortening->text, begin);
    }
    shortening->identifier += length;
    scan->looked += length;
    return length;
}

bool shortening_may_refer(const struct shortening *shortening, struct span text) {
    return is_of_value(shortening->scan.kind) && text.length > 0 && text.data[0] == '&';
}

void shortening_leave_given(struct shortening *shortening, size_t length, struct span text) {
    bytes_add(&shortening->text, text.data, text.length);
    shortening->scan.looked += length;
}

size_t shortening_leave_reference(struct shortening *shortening, struct span text) {
    struct bytes *to = &shortening->text;
    size_t before = to->length;
    size_t length = shortening->scan.kind == RUN_ENTITY ? entity_text_kept(text, to) : entity_text_character(text, to);
    if (length == 0 || to->failed) {
        to->length = to->failed ? to->length : before;
        return 0;
    }
    shortening->scan.looked += length;
    return length;
}

/* Whether a reference in a value or the literal of an entity is looked at next. */
static bool is_at_reference(const struct run_scan *scan, const struct offered *offered) {
    bool is_in_literal = scan->quote != '\0' && is_of_value(scan->literal) && scan->reference == REFERENCE_NONE;
    return is_in_literal && scan->looked >= offered->offset && offered->next.data[scan->looked - offered->offset] == '&';
}

/* Looks at a reference as one of what may be left out, behind which a run begins. False: it is none, or has a long name, and libxml2 is to get it. */
static bool look_at_reference(struct shortening *shortening, struct span text, bool may_cut) {
    struct run_scan *scan = &shortening->scan;
    scan->kind = scan->literal;
    bytes_clear(&shortening->text);
    size_t length = shortening_leave_reference(shortening, text);
    bytes_clear(&shortening->text);
    if (length == 0 && scan->kind == RUN_VALUE) {
        length = shortening->expand(shortening->context, text, &shortening->text);
        length = length > LONGEST_NAME && !may_cut ? 0 : length;
        scan->looked += length;
        bytes_free(&shortening->text);
    }
    scan->run = scan->looked;
    return length > 0;
}

/* Looks at what comes next, which may be left out at once. Returns whether it is a reference that may be left out. */
static bool look_at_next(struct shortening *shortening, const struct offered *offered, bool may_cut) {
    const struct run_scan *scan = &shortening->scan;
    size_t at = (size_t)(scan->looked - offered->offset);
    bool is_reference = offered->held >= LONGEST_HELD && is_at_reference(scan, offered);
    if (is_reference && look_at_reference(shortening, span_from(offered->known, at), may_cut)) {
        return true;
    }
    look(shortening, span_from(offered->next, at));
    return false;
}

void shortening_look(struct shortening *shortening, const struct offered *offered, bool is_declared) {
    struct run_scan *scan = &shortening->scan;
    uint64_t markup = offered->markup;
    uint64_t end = offered->offset + offered->next.length;
    if (end < markup + LOOKED_BYTES) {
        return;
    }
    if (shortening->markup != markup || scan->looked == 0) {
        struct span start = markup < offered->offset ? (struct span){"", 0} : span_from(offered->next, (size_t)(markup - offered->offset));
        shortening->markup = markup;
        if (start.length >= sizeof "<!--" - 1) {
            runs_begin(scan, markup, start, is_declared);
        } else {
            scan->part = PART_OTHER;
            scan->looked = end;
        }
    }
    while (scan->looked < end) {
        look_at_next(shortening, offered, false);
    }
}

/* Looks at what comes next. Returns where it is cut; SIZE_MAX: it is not. */
static size_t look_for_cut(struct shortening *shortening, const struct offered *offered) {
    uint64_t at = shortening->scan.looked;
    bool may_cut = offered->offset >= shortening->scan.sure + KEPT_BYTES;
    if (look_at_next(shortening, offered, may_cut)) {
        return may_cut ? (size_t)(at - offered->offset) : SIZE_MAX;
    }
    return cut_of(shortening, offered);
}

size_t shortening_cut_in(struct shortening *shortening, const struct offered *offered) {
    const struct run_scan *scan = &shortening->scan;
    if (scan->looked == 0 || scan->looked < offered->offset || shortening->markup != offered->markup || scan->part == PART_OTHER) {
        return SIZE_MAX;
    }
    size_t cut = cut_of(shortening, offered);
    while (cut == SIZE_MAX && scan->looked < offered->offset + offered->next.length && scan->part != PART_OTHER) {
        cut = look_for_cut(shortening, offered);
    }
    if (cut != SIZE_MAX) {
        stop(shortening, offered->offset + cut);
    }
    return cut;
}

size_t shortening_close(struct shortening *shortening, char in_place[IN_PLACE_BYTES]) {
    struct run_scan *scan = &shortening->scan;
    if (is_of_value(scan->kind)) {
        scan->sure = scan->looked;
        shortening->failed |= !left_out_put(&shortening->left, scan->is_list, &shortening->text, in_place);
        return shortening->failed ? 0 : LEFT_OUT_MARK;
    }
    if (scan->kind != RUN_NAME) {
        scan->run = scan->looked;
        return 0;
    }
    shortening->failed |= !long_names_put(&shortening->names, &shortening->text, in_place);
    return shortening->failed ? 0 : NUMBER_BYTES;
}

size_t shortening_held(const struct shortening *shortening) {
    size_t kept = shortening->names.held + shortening->left.held + long_uris_held(&shortening->uris);
    return kept + shortening->text.capacity + shortening->whole.capacity;
}
