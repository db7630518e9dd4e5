#include "expected.h"

#include "text_table.h"
#include "xml_names.h"

#include <stdlib.h>

enum { FIRST_BYTES = 1024, MOST_INSIDE = 8 };

/* Gets the text that one of these two writes. */
static bool get(int32_t (*write)(rncv_schema *, uint8_t *, size_t, size_t *), rncv_schema *schema, struct bytes *written) {
    size_t length = FIRST_BYTES;
    int32_t status = RNCV_SPACE;
    bytes_clear(written);
    while (status == RNCV_SPACE && bytes_reserve(written, length)) {
        status = write(schema, (uint8_t *)written->data, written->capacity, &length);
    }
    written->length = status == RNCV_DONE ? length : 0;
    return status == RNCV_DONE;
}

bool expected_get(rncv_schema *schema, struct bytes *written) {
    return get(rncv_expected, schema, written);
}

bool expected_get_in_place(rncv_schema *schema, struct bytes *written) {
    return get(rncv_expected_in_place, schema, written);
}

bool expected_get_tag(rncv_schema *schema, struct span uri, struct span local, struct bytes *written) {
    size_t length = FIRST_BYTES;
    int32_t status = RNCV_SPACE;
    bytes_clear(written);
    while (status == RNCV_SPACE && bytes_reserve(written, length)) {
        status = rncv_expected_tag(schema, (const uint8_t *)uri.data, uri.length, (const uint8_t *)local.data, local.length, (uint8_t *)written->data,
                                   written->capacity, &length);
    }
    written->length = status == RNCV_DONE ? length : 0;
    return status == RNCV_DONE;
}

bool expected_get_options(rncv_schema *schema, const struct event_name *name, const rncv_attribute *attributes, size_t count, const struct event_name *named,
                          struct bytes *written, bool *is_left) {
    size_t length = FIRST_BYTES;
    int32_t status = RNCV_SPACE;
    bytes_clear(written);
    while (status == RNCV_SPACE && bytes_reserve(written, length)) {
        status = library_tag_options(schema, name, attributes, count, named, written, &length);
    }
    written->length = status == RNCV_DONE ? length : 0;
    *is_left = status == RNCV_DONE;
    return status == RNCV_DONE || status == RNCV_REFUSED;
}

/* The fields of a line that are left. */
struct fields {
    struct expected *expected;
    char *at;
    char *end;
};

/* Replaces the escapes of a field, where it is. */
static struct span plain(char *field, size_t length) {
    static const char letters[] = "nrts";
    static const char characters[] = "\n\r\t ";
    size_t to = 0;
    for (size_t at = 0; at < length; at++) {
        bool is_escape = field[at] == '\\' && at + 1 < length;
        at += is_escape;
        const char *letter = is_escape ? memchr(letters, field[at], sizeof letters - 1) : NULL;
        field[to++] = letter == NULL ? field[at] : characters[letter - letters];
    }
    return (struct span){field, to};
}

/* The next field, without its escapes; no data: there is none. */
static struct span next_field(struct fields *fields) {
    if (fields->at >= fields->end) {
        return (struct span){NULL, 0};
    }
    char *space = memchr(fields->at, ' ', (size_t)(fields->end - fields->at));
    char *field = fields->at;
    char *end = space == NULL ? fields->end : space;
    fields->at = end + (space != NULL);
    return plain(field, (size_t)(end - field));
}

static bool next_is(const struct fields *fields, const char *word) {
    size_t length = strlen(word);
    return (size_t)(fields->end - fields->at) >= length && memcmp(fields->at, word, length) == 0;
}

/* Adds a class that a field names, without excepts. The index is 0 if memory ran out. */
static uint32_t add_class(struct expected *expected, struct span field) {
    struct wanted_class class = {WANTED_ANY, {"", 0}, {"", 0}, 0, 0};
    if (!items_grow((void **)&expected->classes, expected->class_count, &expected->class_capacity, sizeof class)) {
        expected->failed = true;
        return 0;
    }
    size_t brace = field.length;
    while (brace > 0 && field.data[brace - 1] != '}') {
        brace--;
    }
    if (brace > 1) {
        class.uri = (struct span){field.data + 1, brace - 2};
        class.local = (struct span){field.data + brace, field.length - brace};
        class.kind = span_is(class.local, "*") ? WANTED_NAMESPACE : WANTED_NAME;
    }
    expected->classes[expected->class_count] = class;
    return expected->class_count++;
}

/* Reads the classes up to the end or to a closing parenthesis. Returns the first one. */
static uint32_t read_classes(struct fields *fields, int depth) {
    struct expected *expected = fields->expected;
    uint32_t first = 0;
    uint32_t last = 0;
    for (struct span field = next_field(fields); field.data != NULL && !span_is(field, ")") && depth < MOST_INSIDE; field = next_field(fields)) {
        uint32_t class = add_class(expected, field);
        if (next_is(fields, "except (")) {
            fields->at += strlen("except (") + 1;
            uint32_t excepted = read_classes(fields, depth + 1);
            expected->classes[class].excepted = excepted;
        }
        first = first == 0 ? class : first;
        expected->classes[last].next = class;
        last = class;
    }
    return first;
}

/* The next field; empty if there is none, as at the end of a line whose last field is empty. */
static struct span next_or_empty(struct fields *fields) {
    struct span field = next_field(fields);
    return field.data == NULL ? (struct span){"", 0} : field;
}

/* Reads the parameters of a datatype, up to the end. Returns how many there are. */
static uint32_t read_parameters(struct fields *fields) {
    struct expected *expected = fields->expected;
    uint32_t before = expected->parameter_count;
    for (struct span name = next_field(fields); name.data != NULL; name = next_field(fields)) {
        if (!items_grow((void **)&expected->parameters, expected->parameter_count, &expected->parameter_capacity, sizeof *expected->parameters)) {
            expected->failed = true;
            break;
        }
        expected->parameters[expected->parameter_count++] = (struct wanted_parameter){name, next_or_empty(fields)};
    }
    return expected->parameter_count - before;
}

/* Reads a value or a datatype. */
static void read_text(struct fields *fields, bool is_value) {
    struct expected *expected = fields->expected;
    if (!items_grow((void **)&expected->texts, expected->text_count, &expected->text_capacity, sizeof *expected->texts)) {
        expected->failed = true;
        return;
    }
    struct wanted_text *text = &expected->texts[expected->text_count++];
    text->is_value = is_value;
    text->library = next_field(fields);
    text->name = next_field(fields);
    text->text = is_value ? next_or_empty(fields) : (struct span){"", 0};
    text->first_parameter = expected->parameter_count;
    text->parameter_count = is_value ? 0 : read_parameters(fields);
}

/* A list of classes, and its last one. */
struct class_list {
    uint32_t *first;
    uint32_t last;
};

static void append(struct expected *expected, struct class_list *list, uint32_t class) {
    if (class != 0) {
        *list->first = *list->first == 0 ? class : *list->first;
        expected->classes[list->last].next = class;
        list->last = class;
    }
}

/* Reads a line, to one of two lists if it has a class. */
static void read_line(struct expected *expected, struct span line, struct class_list *classes, struct class_list *required) {
    char *begin = expected->written.data + (line.data - expected->written.data);
    struct fields fields = {expected, begin, begin + line.length};
    struct span word = next_field(&fields);
    if (span_is(word, "element") || span_is(word, "attribute")) {
        append(expected, classes, read_classes(&fields, 0));
        return;
    }
    if (span_is(word, "required")) {
        append(expected, required, read_classes(&fields, 0));
        return;
    }
    if (span_is(word, "text")) {
        expected->has_text = true;
    } else if (word.data != NULL) {
        read_text(&fields, span_is(word, "value"));
    }
}

/* Reads the lines, each of which counts once. */
static void read_lines(struct expected *expected, struct text_table *seen) {
    char *end = expected->written.data + expected->written.length;
    struct class_list classes = {&expected->first, 0};
    struct class_list required = {&expected->required, 0};
    for (char *line = expected->written.data; line < end && !expected->failed;) {
        char *feed = memchr(line, '\n', (size_t)(end - line));
        size_t length = (size_t)((feed == NULL ? end : feed) - line);
        uint32_t count = seen->count;
        if (text_table_put(seen, (struct span){line, length}) == count) {
            read_line(expected, (struct span){line, length}, &classes, &required);
        }
        expected->failed |= seen->failed;
        line += length + 1;
    }
}

bool expected_open(struct expected *expected, struct span written) {
    struct text_table seen;
    memset(expected, 0, sizeof *expected);
    bytes_add(&expected->written, written.data, written.length);
    expected->failed = expected->written.failed || !items_grow((void **)&expected->classes, 0, &expected->class_capacity, sizeof *expected->classes);
    expected->class_count = 1;
    if (expected->failed || written.length == 0) {
        return !expected->failed;
    }
    text_table_open(&seen);
    read_lines(expected, &seen);
    text_table_close(&seen);
    return !expected->failed;
}

void expected_close(struct expected *expected) {
    bytes_free(&expected->written);
    free(expected->classes);
    free(expected->texts);
    free(expected->parameters);
}

/* Whether one of the classes from this one on has the name. */
static bool one_has(const struct expected *expected, uint32_t class, struct span uri, struct span local) {
    for (; class != 0; class = expected->classes[class].next) {
        const struct wanted_class *here = &expected->classes[class];
        bool is_inside = here->kind == WANTED_ANY || (span_equal(here->uri, uri) && (here->kind == WANTED_NAMESPACE || span_equal(here->local, local)));
        if (is_inside && !one_has(expected, here->excepted, uri, local)) {
            return true;
        }
    }
    return false;
}

bool expected_has(const struct expected *expected, struct span uri, struct span local) {
    return one_has(expected, expected->first, uri, local);
}
