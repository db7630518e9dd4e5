#include "models.h"

#include <stdio.h>

/* What markup begins so. */
static const struct {
    char text[LONGEST_BEGINNING + 1];
    enum model_part part;
} beginnings[] = {{"<!--", MODEL_COMMENT}, {"<?", MODEL_INSTRUCTION}, {"<!ELEMENT", MODEL_INSIDE}, {"<!ATTLIST", MODEL_ATTRIBUTES}, {"<![", MODEL_END}};

static bool is_blank(char byte) {
    return byte == ' ' || byte == '\t' || byte == '\n' || byte == '\r';
}

/* Leaves a byte that is a fault to libxml2. */
static char leave(struct model_scan *scan, char byte) {
    scan->part = MODEL_END;
    return byte;
}

/* Takes a byte outside of models. */
static void take_outside(struct model_scan *scan, char byte) {
    if (byte == '"' || byte == '\'') {
        scan->part = MODEL_LITERAL;
        scan->quote = byte;
    } else if (byte == '<') {
        scan->part = MODEL_BEGINNING;
        scan->read[0] = byte;
        scan->count = 1;
    }
}

/* Takes one more byte of a beginning. */
static void take_beginning(struct model_scan *scan, char byte) {
    size_t before = scan->count++;
    scan->read[before] = byte;
    for (size_t at = 0; at < sizeof beginnings / sizeof *beginnings; at++) {
        if (beginnings[at].text[before] == byte && memcmp(beginnings[at].text, scan->read, before) == 0) {
            bool is_whole = beginnings[at].text[scan->count] == '\0';
            scan->part = is_whole ? beginnings[at].part : MODEL_BEGINNING;
            scan->count = is_whole ? 0 : scan->count;
            return;
        }
    }
    scan->part = scan->read[1] == '!' ? MODEL_OUTSIDE : MODEL_END;
    scan->count = 0;
    if (scan->part == MODEL_OUTSIDE) {
        take_outside(scan, byte);
    }
}

/* Takes a byte of a comment or an instruction, which ends with `>` behind so many of these bytes. */
static void take_until(struct model_scan *scan, char byte, char end, size_t wanted) {
    if (byte == '>' && scan->count >= wanted) {
        scan->part = MODEL_OUTSIDE;
    }
    scan->count = byte == end ? scan->count + 1 : 0;
}

/* Goes into a bracket. */
static char open(struct model_scan *scan) {
    if (scan->depth >= scan->most) {
        return leave(scan, DEEP_BRACKET);
    }
    bytes_add_byte(&scan->separators, '\0');
    if (scan->separators.failed) {
        return leave(scan, '(');
    }
    scan->depth++;
    scan->is_mixed &= scan->depth > 1;
    scan->is_after = false;
    scan->is_closed = false;
    return scan->depth > FLAT_DEPTH ? ' ' : '(';
}

/* Goes out of a bracket. */
static char close(struct model_scan *scan) {
    scan->depth--;
    scan->separators.length--;
    scan->is_closed = true;
    return scan->depth >= FLAT_DEPTH ? ' ' : ')';
}

/* The separator of an open bracket, the outermost of which is 1. */
static char *separator_of(const struct model_scan *scan, size_t depth) {
    return &scan->separators.data[depth - 1];
}

/* Takes a separator. A bracket has those of one kind. Libxml2 finds a bar where it had a comma. */
static char separate(struct model_scan *scan, char byte) {
    char *separator = separator_of(scan, scan->depth);
    if (*separator != '\0' && *separator != byte) {
        return leave(scan, '|');
    }
    *separator = byte;
    scan->is_after = false;
    scan->is_closed = false;
    return ',';
}

/* Takes a byte of a model in brackets of which libxml2 gets no more. */
static char take_deep(struct model_scan *scan, char byte) {
    bool is_behind = scan->is_closed;
    scan->is_closed = false;
    switch (byte) {
    case '(':
        return scan->is_after ? leave(scan, byte) : open(scan);
    case ')':
        return scan->is_after ? close(scan) : leave(scan, byte);
    case ',':
    case '|':
        return scan->is_after ? separate(scan, byte) : leave(scan, byte);
    case '?':
    case '*':
    case '+':
        return is_behind ? ' ' : byte;
    default:
        scan->is_after |= !is_blank(byte);
        return byte;
    }
}

static bool is_separator(char byte) {
    return byte == '|' || byte == ',';
}

/* Takes a byte in brackets that libxml2 gets. */
static void take_shallow(struct model_scan *scan, char byte) {
    scan->is_mixed |= byte == '#';
    if (byte == ')') {
        close(scan);
    } else if (is_separator(byte) && *separator_of(scan, scan->depth) == '\0') {
        *separator_of(scan, scan->depth) = byte;
    }
}

/* Takes a byte of the declaration of an element. */
static char take_inside(struct model_scan *scan, char byte) {
    if (byte == '>') {
        scan->part = MODEL_OUTSIDE;
        scan->depth = 0;
        bytes_clear(&scan->separators);
    } else if (scan->depth >= FLAT_DEPTH) {
        return take_deep(scan, byte);
    } else if (byte == '(') {
        return open(scan);
    } else if (scan->depth > 0) {
        take_shallow(scan, byte);
    }
    return byte;
}

/* Takes a byte. Returns what libxml2 gets in its place. */
static char take(struct model_scan *scan, char byte) {
    switch (scan->part) {
    case MODEL_OUTSIDE:
        take_outside(scan, byte);
        break;
    case MODEL_LITERAL:
        scan->part = byte == scan->quote ? MODEL_OUTSIDE : MODEL_LITERAL;
        break;
    case MODEL_BEGINNING:
        take_beginning(scan, byte);
        break;
    case MODEL_COMMENT:
        take_until(scan, byte, '-', 2);
        break;
    case MODEL_INSTRUCTION:
        take_until(scan, byte, '?', 1);
        break;
    case MODEL_INSIDE:
        return take_inside(scan, byte);
    case MODEL_REFERRING:
        scan->part = byte == '>' ? MODEL_OUTSIDE : MODEL_REFERRING;
        break;
    case MODEL_ATTRIBUTES:
        scan->part = choices_take(&scan->choices, byte) ? MODEL_ATTRIBUTES : MODEL_OUTSIDE;
        break;
    case MODEL_END:
        break;
    }
    return byte;
}

/* Whether one of three bytes is the byte. */
static bool is_one_of(char byte, const char *bytes) {
    return byte == bytes[0] || byte == bytes[1] || byte == bytes[2];
}

/* The place of the next byte that may have to be taken. */
static size_t next(const struct model_scan *scan, struct span text, size_t at) {
    static const char of_parts[][4] = {[MODEL_OUTSIDE] = "<\"'",    [MODEL_LITERAL] = "\"'\"", [MODEL_COMMENT] = "---",
                                       [MODEL_INSTRUCTION] = "???", [MODEL_INSIDE] = "()>",    [MODEL_REFERRING] = ">>>"};
    bool is_each = scan->part == MODEL_BEGINNING || scan->part == MODEL_ATTRIBUTES || scan->count > 0 || scan->depth >= FLAT_DEPTH;
    const char *bytes = is_each ? "" : of_parts[scan->part];
    const char *also = scan->part == MODEL_INSIDE ? "|,#" : bytes;
    while (at < text.length && !is_each && !is_one_of(text.data[at], bytes) && !is_one_of(text.data[at], also)) {
        at++;
    }
    return at;
}

void models_look_again(struct model_scan *scan) {
    bytes_clear(&scan->separators);
    *scan = (struct model_scan){.most = scan->most, .separators = scan->separators};
}

void make_shallow(struct model_scan *scan, char *text, size_t length) {
    size_t at = 0;
    while (at < length && scan->part != MODEL_END) {
        at = next(scan, (struct span){text, length}, at);
        if (at < length) {
            text[at] = take(scan, text[at]);
            at++;
        }
    }
}

size_t model_parting(const struct model_scan *scan, struct span text) {
    size_t depth = scan->part == MODEL_INSIDE ? scan->depth : 0;
    size_t outer = depth; /* that of the outermost bracket so far */
    size_t found = SIZE_MAX;
    for (size_t at = 0; at < text.length && depth > 0 && found == SIZE_MAX; at++) {
        char byte = text.data[at];
        depth = byte == '(' ? depth + 1 : byte == ')' ? depth - 1 : byte == '>' ? 0 : depth;
        outer = depth < outer ? depth : outer;
        if (is_separator(byte) && depth == outer) {
            char known = *separator_of(scan, depth);
            found = known == '\0' || known == byte ? at : SIZE_MAX;
            depth = found == at ? depth : 0;
        }
    }
    return found;
}

/* Writes the beginnings of the open brackets that libxml2 gets, each with a name before its separator. Returns the length. */
static size_t reopen(const struct model_scan *scan, size_t depth, char *text) {
    size_t length = 0;
    for (size_t at = 1; at <= depth; at++) {
        char separator = *separator_of(scan, at);
        text[length++] = '(';
        if (at == depth || separator != '\0') {
            text[length++] = 'a';
        }
        if (at < depth && separator != '\0') {
            text[length++] = separator;
        }
    }
    return length;
}

size_t part_model(const struct model_scan *scan, char text[PARTING_BYTES]) {
    static const char closed[] = "))))))))))))))))";
    _Static_assert(sizeof closed == FLAT_DEPTH + 1, "each bracket that libxml2 gets can be closed");
    int depth = (int)(scan->depth < FLAT_DEPTH ? scan->depth : FLAT_DEPTH);
    const char *mixed_end = scan->is_mixed ? "*" : "";
    const char *mixed = scan->is_mixed ? "(#PCDATA" : "";
    size_t length = (size_t)snprintf(text, PARTING_BYTES, "%.*s%s><!ELEMENT left-out %s", depth, closed, mixed_end, mixed);
    return scan->is_mixed ? length : length + reopen(scan, (size_t)depth, text + length);
}

/* Whether the declaration in whose text this is refers to a parameter entity. */
static bool refers(const char *text, size_t length) {
    const char *end = memchr(text, '>', length);
    return memchr(text, '%', end == NULL ? length : (size_t)(end - text)) != NULL;
}

/* Whether choices can be left out behind the place: libxml2 has enough of them, and the last one is whole. */
static bool may_leave_out(const struct model_scan *scan, const char *text, size_t length, size_t at) {
    return models_have_choices(scan) && (at == length || ((unsigned char)text[at] & 0xC0) != 0x80);
}

bool make_declarations_shallow(char *text, size_t length, size_t most) {
    struct model_scan scan = {.most = most};
    for (size_t at = 0; at < length && scan.part != MODEL_END; at++) {
        bool was_inside = scan.part == MODEL_INSIDE;
        text[at] = take(&scan, text[at]);
        bool is_begun = scan.part == MODEL_INSIDE && !was_inside;
        scan.part = is_begun && refers(text + at, length - at) ? MODEL_REFERRING : scan.part;
        if (may_leave_out(&scan, text, length, at + 1)) {
            at += choices_blank_out(&scan.choices, text, length, at + 1);
        }
    }
    bool is_good = !scan.separators.failed;
    bytes_free(&scan.separators);
    return is_good;
}
