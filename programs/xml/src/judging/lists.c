#include "lists.h"

#include "text_table.h"
#include "xml_names.h"

#include <stdlib.h>

enum {
    MOST_STEPS = 1000000, /* for one place */
    MOST_CONTENTS = 16,
    MOST_BYTES = 65536, /* of a schema, .. */
    MOST_TOKENS = 1000  /* .. and elements in it: what begins a list is compared with all else that does */
};

static void add_part(struct part_list *list, struct part part) {
    list->failed = list->failed || !items_grow((void **)&list->parts, list->count, &list->capacity, sizeof part);
    if (!list->failed) {
        list->parts[list->count++] = part;
    }
}

void part_list_free(struct part_list *list) {
    free(list->parts);
}

/* The line of a part; NULL: it is no pattern. */
static struct form_line *line_of(const struct declared *declared, struct part part) {
    return part.kind == PART_PATTERN ? &declared->form.patterns[part.number] : NULL;
}

static struct span text_of(const struct declared *declared, struct part part) {
    return without_blanks((struct span){(const char *)declared->text + part.from, part.to - part.from});
}

static bool is_known(const struct declared *declared, const struct part_list *list) {
    return !list->failed && !declared->form.failed && !declared->form.is_strange;
}

/* ---- what may be at a place */

/* Whether the line was not looked at in this search. */
static bool take_line(const struct declared *declared, struct form_line *line) {
    bool is_new = line->seen / 2 != declared->time;
    line->seen = 2 * declared->time;
    return is_new;
}

/* Whether a search goes on below a line: a choice or a repetition, and if it is deep a group or an interleave. */
static bool goes_below(const struct form_line *line, bool is_deep) {
    return line->kind == LINE_REPETITION || (line->kind == LINE_JOINED && (is_deep || line->sign == '|'));
}

/* Finds what is in a part below choices and repetitions, and if the search is deep below groups and interleaves. */
static void find_inside(struct declared *declared, struct part part, bool is_deep, struct part_list *inside) {
    struct part_list waiting = NO_PARTS;
    declared->time++;
    add_part(&waiting, part);
    while (waiting.count > 0 && form_step(&declared->form)) {
        struct part next = waiting.parts[--waiting.count];
        struct form_line *line = line_of(declared, next);
        bool is_below = line != NULL && goes_below(line, is_deep);
        if (line != NULL && !take_line(declared, line)) {
            continue;
        }
        add_part(is_below ? &waiting : inside, is_below ? line->one : next);
        if (is_below && line->kind == LINE_JOINED) {
            add_part(&waiting, line->other);
        }
    }
    inside->failed |= waiting.failed;
    part_list_free(&waiting);
}

/* Adds a content, unless it is there or can have no list. */
static void add_content(struct part_list *contents, struct part content) {
    bool is_there = content.kind != PART_PATTERN;
    for (uint32_t at = 0; at < contents->count && !is_there; at++) {
        is_there = contents->parts[at].number == content.number;
    }
    if (!is_there) {
        add_part(contents, content);
    }
}

/* Adds what may be in the attributes of an element that may have the name. */
static void add_values(struct declared *declared, struct part content, const struct event_name *name, struct part_list *contents) {
    struct part_list inside = NO_PARTS;
    find_inside(declared, content, true, &inside);
    for (uint32_t at = 0; at < inside.count; at++) {
        const struct form_line *line = line_of(declared, inside.parts[at]);
        if (line != NULL && line->kind == LINE_ATTRIBUTE && form_class_has(&declared->form, line->class, name->uri, name->local)) {
            add_content(contents, line->one);
        }
    }
    contents->failed |= inside.failed;
    part_list_free(&inside);
}

/* Adds a part if a list is in its choices. The parts of groups and interleaves in them wait. */
static void add_choice(struct declared *declared, struct part part, struct part_list *waiting, struct part_list *contents) {
    struct part_list inside = NO_PARTS;
    bool has_list = false;
    find_inside(declared, part, false, &inside);
    for (uint32_t at = 0; at < inside.count; at++) {
        const struct form_line *line = line_of(declared, inside.parts[at]);
        has_list |= line != NULL && line->kind == LINE_LIST;
        if (line != NULL && line->kind == LINE_JOINED) {
            add_part(waiting, line->one);
            add_part(waiting, line->other);
        }
    }
    if (has_list) {
        add_content(contents, part);
    }
    contents->failed |= inside.failed;
    part_list_free(&inside);
}

/* Adds what the text of an element may be. What is beside different attributes is added by itself, since its lists may exclude one another. */
static void add_texts(struct declared *declared, struct part content, struct part_list *contents) {
    struct part_list waiting = NO_PARTS;
    add_part(&waiting, content);
    while (waiting.count > 0 && contents->count <= MOST_CONTENTS && form_step(&declared->form)) {
        struct part part = waiting.parts[--waiting.count];
        add_choice(declared, part, &waiting, contents);
    }
    contents->failed |= waiting.failed;
    part_list_free(&waiting);
}

bool lists_contents(struct declared *declared, const struct event_name *element, const struct event_name *attribute, struct part_list *contents) {
    struct form *form = &declared->form;
    uint32_t count = declared->only_count > 0 ? declared->only_count : form->element_count;
    form->steps = MOST_STEPS;
    form->is_strange = false;
    for (uint32_t at = 0; at < count && contents->count <= MOST_CONTENTS; at++) {
        const struct form_line *line = &form->elements[declared->only_count > 0 ? declared->only[at] : at];
        if (!form_class_has(form, line->class, element->uri, element->local)) {
            continue;
        }
        if (attribute == NULL) {
            add_texts(declared, line->one, contents);
        } else {
            add_values(declared, line->one, attribute, contents);
        }
    }
    return is_known(declared, contents) && contents->count <= MOST_CONTENTS;
}

/* Whether a part that is no pattern matches no token. */
static bool is_without_token(const struct declared *declared, struct part part) {
    struct span text = text_of(declared, part);
    return part.kind == PART_PLAIN && (span_is(text, "empty") || span_is(text, "notAllowed"));
}

/* Whether a part is a text, a datatype or a value. */
static bool is_other_text(const struct declared *declared, struct part part) {
    const struct form_line *line = line_of(declared, part);
    bool is_plain = part.kind == PART_PLAIN || part.kind == PART_DATA;
    return line != NULL ? line->kind == LINE_EXCEPT : is_plain && !is_without_token(declared, part);
}

bool lists_in(struct declared *declared, struct part content, struct part_list *lists) {
    uint32_t kept = 0;
    bool has_other = false;
    find_inside(declared, content, false, lists);
    for (uint32_t at = 0; at < lists->count; at++) {
        struct part part = lists->parts[at];
        const struct form_line *line = line_of(declared, part);
        has_other |= is_other_text(declared, part);
        if (line != NULL && line->kind == LINE_LIST) {
            lists->parts[kept++] = line->one;
        }
    }
    lists->count = has_other ? 0 : kept;
    return is_known(declared, lists);
}

/* ---- the schema */

/* What a pattern takes: one token in each case, or something else. */
enum taken { TAKEN_UNKNOWN, TAKEN_TOKEN, TAKEN_OTHER };

/* A pattern `p3` of the form is `q3` in a list, where each token has an element around it, and `p3` in such an element. */
struct list_writer {
    struct declared *declared;
    struct bytes *text;
    struct part_list waiting[2]; /* patterns that were mentioned outside of such elements, and inside */
    uint8_t *taken;              /* by each pattern */
    uint32_t token_count;
    bool is_inside;
};

static enum taken taken_by(const struct list_writer *writer, struct part part) {
    bool is_token = part.kind != PART_ELEMENT && !is_without_token(writer->declared, part);
    return part.kind == PART_PATTERN ? (enum taken)writer->taken[part.number] : is_token ? TAKEN_TOKEN : TAKEN_OTHER;
}

/* Finds what a line takes, if it is no choice or the parts of the choice are known. */
static enum taken find_taken(const struct list_writer *writer, const struct form_line *line) {
    if (line->kind != LINE_JOINED || line->sign != '|') {
        return line->kind == LINE_EXCEPT ? TAKEN_TOKEN : TAKEN_OTHER;
    }
    enum taken one = taken_by(writer, line->one);
    enum taken other = taken_by(writer, line->other);
    bool is_known = one != TAKEN_UNKNOWN && other != TAKEN_UNKNOWN;
    return !is_known ? TAKEN_UNKNOWN : one == TAKEN_TOKEN && other == TAKEN_TOKEN ? TAKEN_TOKEN : TAKEN_OTHER;
}

/* Finds what a pattern takes, after the parts of its choice. */
static enum taken take_pattern(struct list_writer *writer, struct part part) {
    struct part_list open = NO_PARTS;
    add_part(&open, part);
    while (open.count > 0 && !open.failed && form_step(&writer->declared->form)) {
        struct part last = open.parts[open.count - 1];
        const struct form_line *line = line_of(writer->declared, last);
        enum taken taken = taken_by(writer, last) == TAKEN_UNKNOWN ? find_taken(writer, line) : taken_by(writer, last);
        if (taken == TAKEN_UNKNOWN) {
            add_part(&open, taken_by(writer, line->one) == TAKEN_UNKNOWN ? line->one : line->other);
            continue;
        }
        open.count--;
        if (line != NULL) {
            writer->taken[last.number] = (uint8_t)taken;
        }
    }
    writer->waiting[0].failed |= open.failed;
    part_list_free(&open);
    return taken_by(writer, part);
}

static void write_span(const struct list_writer *writer, struct span span) {
    bytes_add(writer->text, span.data, span.length);
}

/* Writes a pattern by its name, to be written itself later. */
static void write_name(struct list_writer *writer, struct part part) {
    bytes_format(writer->text, writer->is_inside ? "p%u" : "q%u", (unsigned)part.number);
    add_part(&writer->waiting[writer->is_inside], part);
}

/* Writes a part; one that takes a token gets an element around it. */
static void write_mention(struct list_writer *writer, struct part part) {
    bool is_token = !writer->is_inside && take_pattern(writer, part) == TAKEN_TOKEN;
    bool was_inside = writer->is_inside;
    writer->token_count += is_token;
    writer->is_inside |= is_token;
    bytes_add_text(writer->text, is_token ? "element t { " : "");
    if (part.kind == PART_PATTERN) {
        write_name(writer, part);
    } else {
        write_span(writer, text_of(writer->declared, part));
    }
    bytes_add_text(writer->text, is_token ? " }" : "");
    writer->is_inside = was_inside;
}

static void write_line(struct list_writer *writer, struct part part) {
    const struct form_line *line = line_of(writer->declared, part);
    bytes_format(writer->text, writer->is_inside ? "\np%u = " : "\nq%u = ", (unsigned)part.number);
    write_mention(writer, line->one);
    if (line->kind == LINE_JOINED || line->kind == LINE_EXCEPT) {
        bytes_format(writer->text, " %c ", line->kind == LINE_EXCEPT ? '-' : line->sign);
        write_mention(writer, line->other);
    } else {
        bytes_add_byte(writer->text, '+');
    }
}

static bool is_small(const struct list_writer *writer) {
    return writer->text->length <= MOST_BYTES && writer->token_count <= MOST_TOKENS;
}

/* Writes the patterns that were mentioned outside of the elements, or inside, each once. */
static void write_waiting(struct list_writer *writer, bool is_inside) {
    struct part_list *waiting = &writer->waiting[is_inside];
    writer->is_inside = is_inside;
    writer->declared->time++;
    while (waiting->count > 0 && form_step(&writer->declared->form) && is_small(writer)) {
        struct part part = waiting->parts[--waiting->count];
        if (take_line(writer->declared, line_of(writer->declared, part))) {
            write_line(writer, part);
        }
    }
}

/* Writes all but the namespaces, which no list has. */
static void write_all(struct list_writer *writer, const struct part_list *lists) {
    bytes_add_text(writer->text, "start = element l { ");
    for (uint32_t at = 0; at < lists->count && is_small(writer); at++) {
        bytes_add_text(writer->text, at == 0 ? "" : " | ");
        write_mention(writer, lists->parts[at]);
    }
    bytes_add_text(writer->text, " }");
    write_waiting(writer, false);
    write_waiting(writer, true);
}

bool lists_schema(struct declared *declared, const struct part_list *lists, struct bytes *text) {
    uint8_t *taken = calloc(declared->form.pattern_count + 1, sizeof *taken);
    struct list_writer writer = {declared, text, {NO_PARTS, NO_PARTS}, taken, 0, false};
    if (taken != NULL) {
        write_all(&writer, lists);
    }
    bool is_whole = taken != NULL && is_known(declared, &writer.waiting[0]) && !writer.waiting[1].failed && is_small(&writer);
    part_list_free(&writer.waiting[0]);
    part_list_free(&writer.waiting[1]);
    free(taken);
    return is_whole && !text->failed;
}
