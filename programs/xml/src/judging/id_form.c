#include "id_form.h"

#include "xml_names.h"

#include <stdlib.h>
#include <string.h>

enum { MOST_INSIDE = 600, MOST_STEPS = 50000000 };

bool form_step(struct form *form) {
    form->is_strange |= form->steps == 0;
    form->steps -= form->steps > 0;
    return !form->is_strange && !form->failed;
}

static bool is_strange(struct form *form) {
    form->is_strange = true;
    return false;
}

static void advance(struct form *form) {
    form->token = tokens_next(&form->tokens);
    form_step(form);
}

static bool takes(struct form *form, char sign) {
    bool is_there = is_sign(&form->token, sign);
    if (is_there) {
        advance(form);
    }
    return is_there;
}

static void wants(struct form *form, char sign) {
    if (!takes(form, sign)) {
        is_strange(form);
    }
}

/* The number in a name such as `e12`. False: it is none. */
static bool number_in(struct span name, char letter, uint32_t *number) {
    *number = 0;
    for (size_t at = 1; at < name.length; at++) {
        if (name.data[at] < '0' || name.data[at] > '9' || *number > 100000000) {
            return false;
        }
        *number = *number * 10 + (uint32_t)(name.data[at] - '0');
    }
    return name.length > 1 && name.data[0] == letter;
}

/* The line of a number. Numbers are given one after the other, so there are no gaps for long. NULL: out of memory, or strange. */
static struct form_line *line_of(struct form *form, char letter, uint32_t number) {
    struct form_line **lines = letter == 'e' ? &form->elements : &form->patterns;
    uint32_t *count = letter == 'e' ? &form->element_count : &form->pattern_count;
    uint32_t *capacity = letter == 'e' ? &form->element_capacity : &form->pattern_capacity;
    if (number > *count) {
        is_strange(form);
        return NULL;
    }
    if (!items_grow((void **)lines, number, capacity, sizeof **lines)) {
        form->failed = true;
        return NULL;
    }
    *count = number == *count ? number + 1 : *count;
    return &(*lines)[number];
}

/* How a text is marked by rncv-profile; ID_NONE: it is not. */
static enum id_type mark_of(struct span text, bool is_value) {
    size_t feeds = 0;
    while (is_value && feeds < text.length && text.data[feeds] == '\n') {
        feeds++;
    }
    size_t digits = is_value ? 0 : text.length;
    bool is_one = is_value ? feeds >= 1 && feeds <= 3 : digits >= 7 && digits <= 9 && text.data[0] == '0';
    return !is_one ? ID_NONE : (enum id_type)(is_value ? feeds : 10 - digits);
}

/* The ID-type that a datatype has by its name. The library with the empty URI, which has no prefix, has none. */
static enum id_type type_named(struct span name) {
    const char *colon = memchr(name.data, ':', name.length);
    struct span local = {colon == NULL ? "" : colon + 1, colon == NULL ? 0 : name.length - (size_t)(colon + 1 - name.data)};
    return span_is(local, "ID") ? ID_ID : span_is(local, "IDREF") ? ID_IDREF : span_is(local, "IDREFS") ? ID_IDREFS : ID_NONE;
}

/* Reads a literal, with its joined parts. */
static void read_literal(struct form *form, struct bytes *text) {
    bytes_clear(text);
    if (form->token.kind != TOKEN_LITERAL) {
        is_strange(form);
    }
    while (form->token.kind == TOKEN_LITERAL && !form->is_strange) {
        add_literal(text, &form->token);
        advance(form);
        if (!takes(form, '~')) {
            break;
        }
    }
    form->failed |= text->failed;
}

/* Reads the parameters behind a datatype, and leaves the minLength in `text`. */
static void read_parameters(struct form *form, struct bytes *text) {
    struct bytes value = NO_BYTES;
    while (!is_sign(&form->token, '}') && form_step(form)) {
        bool is_length = is_word(&form->token, "minLength");
        advance(form);
        wants(form, '=');
        read_literal(form, &value);
        if (is_length) {
            bytes_add(text, value.data, value.length);
        }
    }
    form->failed |= text->failed;
    bytes_free(&value);
    wants(form, '}');
}

/* A datatype with its parameters, or a value. */
static struct part read_data(struct form *form) {
    struct part part = NO_PART;
    struct bytes text = NO_BYTES;
    struct span name = form->token.text;
    advance(form);
    bool is_value = form->token.kind == TOKEN_LITERAL;
    if (is_value) {
        read_literal(form, &text);
    } else if (takes(form, '{')) {
        read_parameters(form, &text);
    }
    bool is_name = span_is(name, "xsd:NCName");
    enum id_type type = type_named(name);
    if (type == ID_NONE && form->is_marked && (is_name || span_is(name, "xsd:token"))) {
        type = mark_of((struct span){text.data == NULL ? "" : text.data, text.length}, is_value);
        part.is_item = is_name && type == ID_IDREFS && !is_value;
    }
    part.kind = type == ID_NONE ? PART_PLAIN : PART_DATA;
    part.type = (uint8_t)type;
    bytes_free(&text);
    return part;
}

/* Where the part ends that was read last. */
static size_t end_of(const struct form *form) {
    return form->token.kind == TOKEN_NONE ? form->length : form->token.at;
}

/* What is mentioned, without its place. */
static struct part read_mention(struct form *form) {
    struct part part = NO_PART;
    const struct token *token = &form->token;
    if (token->kind == TOKEN_NAME || is_word(token, "string") || is_word(token, "token")) {
        return read_data(form);
    }
    bool is_plain = is_word(token, "empty") || is_word(token, "text") || is_word(token, "notAllowed");
    if (token->kind == TOKEN_WORD && number_in(token->text, 'e', &part.number)) {
        part.kind = PART_ELEMENT;
    } else if (token->kind == TOKEN_WORD && number_in(token->text, 'p', &part.number)) {
        part.kind = PART_PATTERN;
    } else if (!is_plain) {
        is_strange(form);
    }
    advance(form);
    return part;
}

/* What is mentioned. */
static struct part read_part(struct form *form) {
    size_t from = form->token.at;
    struct part part = read_mention(form);
    part.from = from;
    part.to = end_of(form);
    return part;
}

static uint32_t read_class(struct form *form, int depth);

/* A class, or what is in parentheses. */
static uint32_t read_basic(struct form *form, int depth) {
    struct token token = form->token;
    if (takes(form, '(')) {
        uint32_t inside = read_class(form, depth + 1);
        wants(form, ')');
        return inside;
    }
    if (!items_grow((void **)&form->classes, form->class_count, &form->class_capacity, sizeof *form->classes)) {
        form->failed = true;
        return NO_CLASS;
    }
    uint32_t number = form->class_count++;
    struct form_class *class = &form->classes[number];
    const char *colon = token.kind == TOKEN_NAME ? memchr(token.text.data, ':', token.text.length) : NULL;
    struct span prefix = {token.text.data, colon == NULL ? 0 : (size_t)(colon - token.text.data)};
    uint32_t which = 0;
    *class = (struct form_class){{"", 0}, token.text, 0, 0, CLASS_ONE_NAME};
    if (is_sign(&token, '*')) {
        class->kind = CLASS_ALL;
    } else if (colon != NULL && number_in(prefix, 'n', &which) && which < form->prefix_count) {
        class->uri = form->prefixes[which];
        class->local = (struct span){colon + 1, token.text.length - prefix.length - 1};
        class->kind = is_names(&token) ? CLASS_NAMESPACE : CLASS_ONE_NAME;
    } else if (colon != NULL || (token.kind != TOKEN_WORD && token.kind != TOKEN_NAME)) {
        is_strange(form);
    }
    advance(form);
    return number;
}

static uint32_t read_class(struct form *form, int depth) {
    if (depth > MOST_INSIDE || !form_step(form)) {
        is_strange(form);
        return NO_CLASS;
    }
    uint32_t first = read_basic(form, depth);
    if (takes(form, '-')) {
        uint32_t except = read_basic(form, depth);
        form->classes[first].child = except;
    }
    if (!is_sign(&form->token, '|') || form->failed || form->is_strange) {
        return first;
    }
    if (!items_grow((void **)&form->classes, form->class_count, &form->class_capacity, sizeof *form->classes)) {
        form->failed = true;
        return first;
    }
    uint32_t choice = form->class_count++;
    form->classes[choice] = (struct form_class){{"", 0}, {"", 0}, first, 0, CLASS_ONE_OF};
    for (uint32_t last = first; takes(form, '|') && form_step(form);) {
        uint32_t next = read_basic(form, depth);
        form->classes[last].next = next;
        last = next;
    }
    return choice;
}

/* What is in braces. */
static struct part read_braced(struct form *form) {
    wants(form, '{');
    form->from = form->token.at;
    struct part part = read_part(form);
    form->to = form->token.at;
    wants(form, '}');
    return part;
}

/* What is after `=` in the line of a pattern or an element. */
static struct form_line read_line(struct form *form) {
    struct form_line line = {NO_PART, NO_PART, NO_CLASS, 0, LINE_JOINED, '\0', form->token.at, 0, 0, 0};
    bool is_element = is_word(&form->token, "element");
    if (is_element || is_word(&form->token, "attribute")) {
        line.kind = is_element ? LINE_ELEMENT : LINE_ATTRIBUTE;
        advance(form);
        line.class_from = form->token.at;
        line.class = read_class(form, 0);
        line.class_to = form->token.at;
        line.one = read_braced(form);
    } else if (is_word(&form->token, "list")) {
        line.kind = LINE_LIST;
        advance(form);
        line.one = read_braced(form);
    } else {
        line.one = read_part(form);
        if (takes(form, '+')) {
            line.kind = LINE_REPETITION;
        } else if (takes(form, '-')) {
            line.kind = LINE_EXCEPT;
            line.other = read_part(form);
        } else if (is_sign(&form->token, '|') || is_sign(&form->token, ',') || is_sign(&form->token, '&')) {
            line.sign = form->token.text.data[0];
            advance(form);
            line.other = read_part(form);
        } else {
            is_strange(form);
        }
    }
    bool is_braced = line.kind == LINE_ELEMENT || line.kind == LINE_ATTRIBUTE;
    line.from = is_braced ? form->from : line.from;
    line.to = is_braced ? form->to : end_of(form);
    return line;
}

/* A line of a namespace. */
static void read_namespace(struct form *form, struct bytes *text) {
    uint32_t number;
    advance(form);
    if (!number_in(form->token.text, 'n', &number) || number != form->prefix_count) {
        is_strange(form);
        return;
    }
    advance(form);
    wants(form, '=');
    read_literal(form, text);
    if (!items_grow((void **)&form->prefixes, form->prefix_count, &form->prefix_capacity, sizeof *form->prefixes)) {
        form->failed = true;
        return;
    }
    size_t at = form->uris.length;
    bytes_add(&form->uris, text->data, text->length);
    form->prefixes[form->prefix_count++] = (struct span){form->uris.data == NULL ? "" : form->uris.data + at, text->length};
}

/* A line of an element or a pattern. */
static void read_item(struct form *form) {
    uint32_t number;
    char letter = form->token.text.data[0];
    if (form->token.kind != TOKEN_WORD || (letter != 'e' && letter != 'p') || !number_in(form->token.text, letter, &number)) {
        is_strange(form);
        return;
    }
    advance(form);
    wants(form, '=');
    struct form_line read = read_line(form);
    struct form_line *line = form->failed || form->is_strange ? NULL : line_of(form, letter, number);
    if (line != NULL && (line->kind != LINE_NONE || (letter == 'e') != (read.kind == LINE_ELEMENT))) {
        is_strange(form);
    } else if (line != NULL) {
        *line = read;
    }
}

static void read_form(struct form *form) {
    struct bytes text = NO_BYTES;
    advance(form);
    while (is_word(&form->token, "namespace") && form_step(form)) {
        read_namespace(form, &text);
    }
    bytes_free(&text);
    if (!is_word(&form->token, "start")) {
        is_strange(form);
        return;
    }
    form->start = form->token.at;
    advance(form);
    wants(form, '=');
    form->root = read_part(form);
    while (form->token.kind != TOKEN_NONE && form_step(form)) {
        read_item(form);
    }
    if (form->token.at < form->length) {
        is_strange(form); /* something is no token */
    }
}

/* Whether all that is mentioned has a line. */
static bool is_complete(const struct form *form) {
    bool is_good = (form->root.kind != PART_ELEMENT || form->root.number < form->element_count) &&
                   (form->root.kind != PART_PATTERN || form->root.number < form->pattern_count);
    for (uint32_t at = 0; at < form->element_count + form->pattern_count && is_good; at++) {
        const struct form_line *line = at < form->element_count ? &form->elements[at] : &form->patterns[at - form->element_count];
        const struct part *parts[] = {&line->one, &line->other};
        is_good = line->kind != LINE_NONE;
        for (size_t part = 0; part < 2; part++) {
            is_good = is_good && (parts[part]->kind != PART_ELEMENT || parts[part]->number < form->element_count) &&
                      (parts[part]->kind != PART_PATTERN || parts[part]->number < form->pattern_count);
        }
    }
    return is_good;
}

bool form_open(struct form *form, struct span text, bool is_marked) {
    memset(form, 0, sizeof *form);
    form->steps = MOST_STEPS;
    form->length = text.length;
    form->is_marked = is_marked;
    form->class_count = 1;
    if (!tokens_open(&form->tokens, text.data, text.length) || !bytes_reserve(&form->uris, text.length + 1) ||
        !items_grow((void **)&form->classes, 0, &form->class_capacity, sizeof *form->classes)) {
        form->failed = true;
        return false;
    }
    read_form(form);
    form->is_strange |= !form->failed && !form->is_strange && !is_complete(form);
    return !form->failed && !form->is_strange;
}

void form_close(struct form *form) {
    tokens_close(&form->tokens);
    bytes_free(&form->uris);
    free(form->prefixes);
    free(form->elements);
    free(form->patterns);
    free(form->classes);
}

bool form_class_has(struct form *form, uint32_t class, struct span uri, struct span local) {
    const struct form_class *here = &form->classes[class];
    if (!form_step(form)) {
        return false;
    }
    if (here->kind == CLASS_ONE_NAME) {
        return span_equal(here->local, local) && span_equal(here->uri, uri);
    }
    if (here->kind == CLASS_ONE_OF) {
        bool is_there = false;
        for (uint32_t at = here->child; at != 0 && !is_there; at = form->classes[at].next) {
            is_there = form_class_has(form, at, uri, local);
        }
        return is_there;
    }
    bool is_inside = here->kind == CLASS_ALL || span_equal(here->uri, uri);
    return is_inside && (here->child == NO_CLASS || !form_class_has(form, here->child, uri, local));
}
