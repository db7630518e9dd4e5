#include "choices.h"

#include "runs.h"
#include "xml_names.h"

static const char notation[] = "NOTATION";

enum { WORDS_BEFORE = 2 /* the kind of an attribute */ };

/* Takes a byte of a name or a keyword, or of a sign between them. */
static void take_word(struct choice_scan *scan, char byte) {
    if (!scan->is_in_word) {
        scan->words++;
        scan->word_length = 0;
        scan->matched = 0;
    }
    scan->is_in_word = true;
    scan->matched += scan->matched == scan->word_length && scan->matched < strlen(notation) && notation[scan->matched] == byte;
    scan->word_length++;
}

/* Goes into a list. */
static void open_list(struct choice_scan *scan) {
    bool is_notation = scan->matched == strlen(notation) && scan->word_length == scan->matched;
    scan->is_of_names = scan->words > WORDS_BEFORE && is_notation;
    scan->is_in_list = true;
    scan->is_over = false;
    scan->is_in_word = false;
    scan->given = 0;
}

/* Takes a byte outside of literals and lists. */
static void take_outside(struct choice_scan *scan, char byte) {
    if (byte == '"' || byte == '\'') {
        scan->quote = byte;
    } else if (byte == '(') {
        open_list(scan);
    } else if (byte == '#') {
        scan->is_in_word = false;
        scan->words = 0; /* the keyword behind it is the last of the attribute, as the name of the element comes before one, unless it is `FIXED` */
    } else if (is_blank_byte(byte)) {
        scan->is_in_word = false;
    } else {
        take_word(scan, byte);
    }
}

bool choices_take(struct choice_scan *scan, char byte) {
    bool is_end = scan->quote == '\0' && (byte == '%' || (byte == '>' && !scan->is_in_list));
    if (scan->quote != '\0') {
        bool is_closed = byte == scan->quote;
        scan->quote = is_closed ? '\0' : scan->quote;
        scan->words = is_closed ? 1 : scan->words; /* the value by default was the last of the attribute */
    } else if (scan->is_in_list) {
        scan->is_in_list = byte != ')';
        scan->given++;
    } else {
        take_outside(scan, byte);
    }
    if (is_end) {
        *scan = (struct choice_scan){0};
    }
    return !is_end;
}

/* Whether a bracket has its end soon behind, or at the end of what is known. */
static bool is_short(struct span text) {
    return text.length < (size_t)2 * LIST_KEPT || memchr(text.data, ')', (size_t)2 * LIST_KEPT) != NULL;
}

size_t choices_most(const struct choice_scan *scan, struct span next, size_t most) {
    size_t searched = most + (size_t)2 * LIST_KEPT;
    size_t at = 0;
    next.length = next.length < searched ? next.length : searched;
    bool is_long = scan->is_in_list && !is_short(next);
    while (at < next.length && !is_long) {
        const char *bracket = memchr(next.data + at, '(', next.length - at);
        at = bracket == NULL ? next.length : (size_t)(bracket - next.data) + 1;
        is_long = bracket != NULL && !is_short(span_from(next, at));
    }
    return is_long && at + (size_t)2 * LIST_KEPT < most ? at + (size_t)2 * LIST_KEPT : most;
}

/* How many bytes at the start of the text go on with a choice that has begun. */
static size_t choice_length(struct span text) {
    static const struct run_scan name = {.kind = RUN_NAME};
    size_t at = run_length(&name, text);
    while (at < text.length && text.data[at] == ':') {
        at++;
        at += run_length(&name, span_from(text, at));
    }
    return at;
}

/* How many bytes a choice has that begins at the start of the text. */
static size_t beginning_length(const struct choice_scan *scan, struct span text) {
    size_t size = 1;
    bool may_begin = !scan->is_of_names || text.data[0] == ':' || is_name_character(code_point(text, 0, &size), true);
    return may_begin ? choice_length(text) : 0;
}

static size_t blanks_length(struct span text) {
    size_t at = 0;
    while (at < text.length && is_blank_byte(text.data[at])) {
        at++;
    }
    return at;
}

/* Reads what comes next of the list, which goes on. Returns its length; 0: it does not. */
static size_t read_next(struct choice_scan *scan, struct span text) {
    size_t length = scan->part == LIST_CHOICE ? choice_length(text) : blanks_length(text);
    if (length > 0) {
        return length;
    }
    if (scan->part == LIST_OPENED) {
        length = beginning_length(scan, text);
        scan->part = length > 0 ? LIST_CHOICE : LIST_OPENED;
    } else if (text.data[0] == '|') {
        length = 1;
        scan->part = LIST_OPENED;
    } else if (scan->part == LIST_CHOICE) {
        length = blanks_length(text);
        scan->part = length > 0 ? LIST_BEHIND : LIST_CHOICE;
    }
    return length;
}

/* How many bytes of the text are whole characters. */
static size_t whole_length(struct span text) {
    size_t first = text.length; /* of the last character */
    while (first > 0 && text.length - first < 3 && ((unsigned char)text.data[first - 1] & 0xC0) == 0x80) {
        first--;
    }
    size_t size = 1;
    if (first > 0) {
        first--;
        code_point(text, first, &size);
    }
    return first + size > text.length ? first : text.length;
}

size_t choices_leave_out(struct choice_scan *scan, struct span text) {
    size_t at = 0;
    size_t length = 1;
    text.length = whole_length(text);
    while (at < text.length && length > 0) {
        length = read_next(scan, span_from(text, at));
        at += length;
    }
    return at;
}

bool choices_begin(struct choice_scan *scan, struct span given) {
    scan->part = LIST_OPENED;
    bool is_good = choices_leave_out(scan, given) == given.length;
    scan->begun = scan->part;
    scan->is_over |= !is_good;
    return is_good;
}

const char *choices_close(struct choice_scan *scan) {
    static const char *const in_place[][3] = {
        [LIST_OPENED] = {[LIST_OPENED] = "", [LIST_CHOICE] = "a", [LIST_BEHIND] = "a "},
        [LIST_CHOICE] = {[LIST_OPENED] = "|", [LIST_CHOICE] = "", [LIST_BEHIND] = " "},
        [LIST_BEHIND] = {[LIST_OPENED] = "|", [LIST_CHOICE] = "|a", [LIST_BEHIND] = ""},
    };
    scan->is_over = true;
    return in_place[scan->begun][scan->part];
}

size_t choices_blank_out(struct choice_scan *scan, char *text, size_t length, size_t at) {
    if (!choices_begin(scan, (struct span){text + at - scan->given, scan->given})) {
        return 0;
    }
    size_t end = at + choices_leave_out(scan, (struct span){text + at, length - at});
    bool is_whole = end < length && text[end] == ')' && scan->part != LIST_OPENED;
    if (is_whole) {
        memset(text + at, ' ', end - at);
    }
    if (is_whole && scan->begun == LIST_OPENED) {
        text[at] = 'a';
    }
    scan->is_over = true;
    return is_whole ? end - at : 0;
}
