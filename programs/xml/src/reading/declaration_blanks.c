#include "declaration_blanks.h"

static const char end[] = "?>";
static const char spaces[] = "                                                                "; /* that are compared at once */

/* The character of ASCII that the bytes are; 0: they are none. */
static char character_of(const char *bytes, struct code_unit unit) {
    bool is_wide = false;
    for (size_t at = 0; at < unit.size; at++) {
        is_wide |= at != unit.place && bytes[at] != '\0';
    }
    return is_wide ? '\0' : bytes[unit.place];
}

/* Writes spaces. */
static void blank_out(char *bytes, size_t count, struct code_unit unit) {
    memset(bytes, 0, count * unit.size);
    for (size_t at = 0; at < count; at++) {
        bytes[at * unit.size + unit.place] = ' ';
    }
}

/* Adds a character to the run. A line feed belongs to the carriage return before it. */
static void add_to_run(struct declaration_blanks *blanks, char character) {
    bool is_line_end = character == '\r' || character == '\n';
    bool is_second = character == '\n' && blanks->last == '\r' && blanks->length > 0;
    blanks->run.lines += is_line_end && !is_second;
    blanks->run.columns = is_line_end ? 0 : blanks->run.columns + 1;
    blanks->length++;
    if (blanks->length == KEPT_BLANKS && blanks->count < MOST_RUNS) {
        blanks->is_long = true;
        blanks->count++;
    }
    if (blanks->is_long) {
        blanks->runs[blanks->count - 1] = blanks->run;
    }
}

/* Looks at the next character. */
static void look(struct declaration_blanks *blanks, char character) {
    if (character == ' ' || character == '\t' || character == '\n' || character == '\r') {
        add_to_run(blanks, character);
    } else {
        blanks->length = 0;
        blanks->is_long = false;
        blanks->run = (struct blank_run){0, 0};
    }
    blanks->has_end = character == end[1] && blanks->last == end[0];
    blanks->last = character;
}

/* Goes on over spaces in a long run, as many as are compared at once. Returns how many bytes that is. */
static size_t pass_spaces(struct declaration_blanks *blanks, struct span bytes) {
    size_t at = 0;
    while (span_begins(span_from(bytes, at), spaces)) {
        at += sizeof spaces - 1;
    }
    if (at > 0) {
        blanks->last = ' ';
        blanks->length += at;
        blanks->run.columns += at;
        blanks->runs[blanks->count - 1] = blanks->run;
    }
    return at;
}

void leave_out_blanks(struct declaration_blanks *blanks, struct bytes *bytes, struct code_unit unit) {
    bool has_spaces = unit.size == 1;
    size_t at = blanks->looked;
    while (at + unit.size <= bytes->length && !blanks->has_end) {
        at += has_spaces && blanks->is_long ? pass_spaces(blanks, (struct span){bytes->data + at, bytes->length - at - unit.size}) : 0;
        look(blanks, character_of(bytes->data + at, unit));
        if (!blanks->is_long || blanks->length == KEPT_BLANKS) {
            memmove(bytes->data + blanks->looked, bytes->data + at, unit.size);
            blanks->looked += unit.size;
        }
        if (blanks->is_long && blanks->length == KEPT_BLANKS) {
            blank_out(bytes->data + blanks->looked - KEPT_BLANKS * unit.size, KEPT_BLANKS, unit);
        }
        at += unit.size;
    }
    memmove(bytes->data + blanks->looked, bytes->data + at, bytes->length - at);
    bytes->length -= at - blanks->looked;
}

/* How many spaces begin the text. */
static size_t spaces_of(struct span text) {
    size_t count = 0;
    while (count < text.length && text.data[count] == ' ') {
        count++;
    }
    return count;
}

/* Goes on over the run. */
static struct place behind_run(struct place place, struct blank_run run) {
    return run.lines > 0 ? (struct place){place.line + run.lines, run.columns + 1} : (struct place){place.line, place.column + run.columns};
}

struct place place_behind_declaration(const struct declaration_blanks *blanks, struct span text, size_t *length) {
    struct place place = {1, 1};
    unsigned count = 0;
    size_t at = 0;
    while (at < text.length && !span_begins(span_from(text, at), end)) {
        size_t run = spaces_of(span_from(text, at));
        bool is_long = run >= KEPT_BLANKS && count < blanks->count;
        bool is_line_end = text.data[at] == '\n';
        struct blank_run next = is_long ? blanks->runs[count] : (struct blank_run){is_line_end, is_line_end ? 0 : run > 0 ? run : 1};
        place = behind_run(place, next);
        count += is_long;
        at += is_long ? KEPT_BLANKS : run > 0 ? run : 1;
    }
    *length = at < text.length ? at + sizeof end - 1 : text.length;
    place.column += *length - at;
    return place;
}
