#include "telling.h"

#include "expected.h"
#include "list_fault.h"
#include "near.h"
#include "schema_asked.h"
#include "xml_names.h"

#include <stdlib.h>

enum {
    MOST_NAMES = 8,        /* in a message */
    SHOWN_CHARACTERS = 40, /* of a text or a value */
    ITEM_CHARACTERS = 80   /* of what is in a list */
};

#define XSD "http://www.w3.org/2001/XMLSchema-datatypes"

/* What is told. */
struct words {
    struct judge *judge;
    const struct finding *found;
    struct answer *answer;
    struct bytes *line;       /* the message */
    struct expected expected; /* what could have come before the start or end */
    struct expected in_place; /* what could have come in place of the text directly before it */
    struct expected tag;      /* what the tag of a start could have had, .. */
    struct expected options;  /* .. and behind those of its attributes that are right, and as the value of the one that is wrong */
    struct bytes near;        /* an expected name that is nearly the one that is there; empty: there is none */
    size_t distance;
};

/* ---- what was expected */

static void end_item(struct answer *answer) {
    bytes_add_byte(&answer->expected, '\0');
    answer->expected_count++;
}

static int compare(const void *one, const void *other) {
    return strcmp(*(const char *const *)one, *(const char *const *)other);
}

/* Sorts the items, since the library tells them in an order of its own. */
static void sort_items(struct answer *answer) {
    struct bytes sorted = NO_BYTES;
    const char **items = answer->expected_count == 0 ? NULL : malloc(answer->expected_count * sizeof *items);
    if (items == NULL || answer->expected.failed) {
        answer->expected.failed |= answer->expected_count > 0;
        free(items);
        return;
    }
    const char *at = answer->expected.data;
    for (size_t index = 0; index < answer->expected_count; index++) {
        items[index] = at;
        at += strlen(at) + 1;
    }
    qsort(items, answer->expected_count, sizeof *items, compare);
    for (size_t index = 0; index < answer->expected_count; index++) {
        bytes_add(&sorted, items[index], strlen(items[index]) + 1);
    }
    free(items);
    bytes_free(&answer->expected);
    answer->expected = sorted;
}

/* Adds a text in quotes, with those inside as `\"`. */
static void add_quoted(struct bytes *to, struct span text) {
    bytes_add_byte(to, '"');
    for (size_t at = 0; at < text.length; at++) {
        bytes_add_text(to, text.data[at] == '"' ? "\\" : "");
        bytes_add_byte(to, text.data[at]);
    }
    bytes_add_byte(to, '"');
}

/* Adds the name of a datatype. */
static void add_datatype(struct bytes *to, const struct wanted_text *type) {
    if (span_is(type->library, XSD)) {
        bytes_add_text(to, "xsd:");
    } else if (type->library.length > 0) {
        bytes_add_byte(to, '{');
        bytes_add(to, type->library.data, type->library.length);
        bytes_add_byte(to, '}');
    }
    bytes_add(to, type->name.data, type->name.length);
}

/* Adds a value as the compact syntax has it, in quotes that are not inside. If both are, those of the one kind are as `\"`. */
static void add_in_quotes(struct bytes *to, struct span value) {
    bool is_double = memchr(value.data, '"', value.length) == NULL || memchr(value.data, '\'', value.length) != NULL;
    if (is_double) {
        add_quoted(to, value);
        return;
    }
    bytes_add_byte(to, '\'');
    bytes_add(to, value.data, value.length);
    bytes_add_byte(to, '\'');
}

/* Adds the parameters of a datatype, if it has some, as the compact syntax has them. */
static void add_parameters(const struct words *words, const struct expected *expected, const struct wanted_text *type) {
    struct bytes *to = &words->answer->expected;
    for (uint32_t at = 0; at < type->parameter_count; at++) {
        const struct wanted_parameter *parameter = &expected->parameters[type->first_parameter + at];
        bytes_add_text(to, at == 0 ? " { " : " ");
        bytes_add(to, parameter->name.data, parameter->name.length);
        bytes_add_text(to, " = ");
        add_in_quotes(to, parameter->value);
    }
    bytes_add_text(to, type->parameter_count > 0 ? " }" : "");
}

/* Adds a name of an element in angle brackets, or with its namespace. */
static void add_element(struct bytes *to, const struct scope *scope, struct span uri, struct span local) {
    struct bytes name = NO_BYTES;
    add_scoped(&name, scope, uri, local, false);
    bool has_uri = name.length > 0 && name.data[0] == '{';
    bool has_none = has_uri && uri.length == 0;
    bytes_add_text(to, has_uri && !has_none ? "" : "<");
    bytes_add(to, name.data + (has_none ? strlen("{}") : 0), name.length - (has_none ? strlen("{}") : 0));
    bytes_add_text(to, has_none ? "> without namespace" : has_uri ? "" : ">");
    to->failed |= name.failed;
    bytes_free(&name);
}

/* Adds a class of names, which may have exceptions beside those that are written in it. */
static void add_class(struct words *words, const struct wanted_class *class, bool has_exceptions) {
    struct bytes *to = &words->answer->expected;
    if (class->kind == WANTED_NAME) {
        add_element(to, &words->judge->scope, class->uri, class->local);
    } else {
        bytes_add_text(to, class->kind == WANTED_ANY ? "any element" : class->uri.length == 0 ? "any element without namespace" : "any element of ");
        bytes_add(to, class->uri.data, class->uri.length);
        bytes_add_text(to, has_exceptions || class->excepted != 0 ? " (with exceptions)" : "");
    }
    end_item(words->answer);
}

/* Keeps the name of the item that was added last if it is the nearest one so far. */
static void keep_near(struct words *words, struct span name, struct span other, size_t begin) {
    size_t distance = distance_of(name, other);
    const struct bytes *expected = &words->answer->expected;
    if (distance != NOT_NEAR && distance < words->distance && !expected->failed) {
        words->distance = distance;
        bytes_clear(&words->near);
        bytes_add(&words->near, expected->data + begin, expected->length - 1 - begin);
    }
}

/* Whether a class has the name of the element itself: it is expected, and nothing matches it. */
static bool has_own(const struct words *words, const struct wanted_class *class) {
    bool is_inside = class->kind == WANTED_ANY || span_equal(class->uri, finding_uri(words->found));
    return is_inside && (class->kind != WANTED_NAME || span_equal(class->local, finding_local(words->found)));
}

/* Adds the classes of elements. With a name, that of an element which is not allowed, one that is nearly the same is kept, and the element itself is left
 * out, or is an exception. */
static void add_classes(struct words *words, const struct expected *expected, struct span name) {
    for (uint32_t at = expected->first; at != 0; at = expected->classes[at].next) {
        const struct wanted_class *class = &expected->classes[at];
        size_t begin = words->answer->expected.length;
        bool is_exception = name.length > 0 && has_own(words, class);
        if (is_exception && class->kind == WANTED_NAME) {
            continue;
        }
        add_class(words, class, is_exception);
        if (class->kind == WANTED_NAME && name.length > 0) {
            keep_near(words, name, class->local, begin);
        }
    }
}

/* Adds the values and the datatypes. */
static void add_texts(struct words *words, const struct expected *expected) {
    for (uint32_t at = 0; at < expected->text_count; at++) {
        const struct wanted_text *text = &expected->texts[at];
        if (text->is_value) {
            add_quoted(&words->answer->expected, text->text);
        } else {
            add_datatype(&words->answer->expected, text);
            add_parameters(words, expected, text);
        }
        end_item(words->answer);
    }
}

/* Adds that any text may come, if that is so. */
static void add_any_text(struct words *words, const struct expected *expected) {
    if (expected->has_text && expected->text_count == 0) {
        bytes_add_text(&words->answer->expected, "text");
        end_item(words->answer);
    }
}

/* ---- lines */

static void say(struct words *words, const char *text) {
    bytes_add_text(words->line, text);
}

static void say_span(struct words *words, struct span span) {
    add_shown(words->line, span.data, span.length, ITEM_CHARACTERS);
}

static void say_element(struct words *words, struct span name) {
    say(words, "<");
    say_span(words, name);
    say(words, ">");
}

static struct span found_name(const struct words *words) {
    const struct bytes *name = &words->found->name;
    return (struct span){name->data, name->length};
}

/* The element that a text is in. Empty: it is not known. */
static struct span around(const struct words *words) {
    const struct bytes *name = &words->found->around;
    return words->found->is_end ? found_name(words) : (struct span){name->data, name->length};
}

static struct span found_text(const struct words *words) {
    return (struct span){words->found->text.data, words->found->text.length};
}

/* Says a text in quotes. */
static void say_quoted(struct words *words, struct span text) {
    struct bytes escaped = NO_BYTES;
    add_quoted(&escaped, text);
    size_t length = escaped.length < 2 ? 0 : escaped.length - 2;
    say(words, "\"");
    add_shown(words->line, length == 0 ? "" : escaped.data + 1, length, SHOWN_CHARACTERS);
    say(words, "\"");
    words->line->failed |= escaped.failed;
    bytes_free(&escaped);
}

/* Says a text in parentheses. */
static void say_text(struct words *words, struct span text) {
    say(words, " (");
    say_quoted(words, text);
    say(words, ")");
}

/* Says a list of texts that each have a zero behind them, and no more than some of them. */
static void say_list(struct words *words, const struct bytes *list, size_t count, const char *last) {
    const char *at = list->data;
    size_t shown = count > MOST_NAMES ? MOST_NAMES : count;
    for (size_t index = 0; index < shown && !list->failed; index++) {
        say(words, index == 0 ? "" : index + 1 == count ? last : ", ");
        say_span(words, (struct span){at, strlen(at)});
        at += strlen(at) + 1;
    }
    if (count > shown) {
        say(words, " and ");
        bytes_add_count(words->line, count - shown);
        say(words, " more");
    }
}

static void say_expected(struct words *words, const char *before) {
    if (words->answer->expected_count > 0) {
        say(words, before);
        say_list(words, &words->answer->expected, words->answer->expected_count, " or ");
    }
}

static void say_near(struct words *words) {
    if (words->near.length > 0 && words->answer->expected_count > 1) {
        say(words, "; did you mean ");
        say_span(words, (struct span){words->near.data, words->near.length});
        say(words, "?");
    }
}

/* Says that the element around has to end, since nothing else may come. */
static void say_end(struct words *words) {
    struct span name = around(words);
    if (name.length > 0) {
        say(words, "; expected the end of ");
        say_element(words, name);
    } else {
        say(words, "; no element is");
    }
}

/* ---- reasons */

static void tell_element(struct words *words) {
    words->answer->reason = REASON_ELEMENT;
    say(words, ": ");
    say_element(words, found_name(words));
    say(words, " is not allowed here");
    add_classes(words, &words->expected, finding_local(words->found));
    add_texts(words, &words->expected);
    sort_items(words->answer);
    add_any_text(words, &words->expected);
    say_expected(words, "; expected ");
    say_near(words);
    if (words->answer->expected_count == 0) {
        say_end(words);
    }
}

static void tell_text_not_allowed(struct words *words) {
    struct span name = around(words);
    words->answer->reason = REASON_TEXT;
    say(words, ": text is not allowed ");
    say(words, name.length > 0 ? "in " : "here");
    if (name.length > 0) {
        say_element(words, name);
    }
    say_text(words, found_text(words));
    add_classes(words, &words->in_place, (struct span){"", 0});
    sort_items(words->answer);
    say_expected(words, "; expected ");
    if (words->answer->expected_count == 0) {
        say_end(words);
    }
}

/* Whether the text is a value of the datatype without its parameters, by the larger set, which has all types. True too if that is not known. */
static bool is_of_type(const struct words *words, const struct wanted_text *type, struct span text) {
    if (!span_is(type->library, XSD)) {
        return true;
    }
    struct bytes name = NO_BYTES;
    bytes_add(&name, type->name.data, type->name.length);
    const char *bare = bytes_text(&name);
    words->line->failed |= name.failed;
    bool is_allowed = words->line->failed || asked_allows(bare, text, RNCV_DATATYPES_XML_SCHEMA);
    bytes_free(&name);
    return is_allowed;
}

/* Whether one of the datatypes, which have one name and some parameters, has the text, if excepts do not count. False too if that is not known. */
static bool is_excepted(const struct words *words, const struct expected *expected, struct span text) {
    struct bytes name = NO_BYTES;
    struct bytes question = NO_BYTES;
    bytes_add(&name, expected->texts[0].name.data, expected->texts[0].name.length);
    const char *type = bytes_text(&name);
    for (uint32_t at = 0; at < expected->text_count; at++) {
        const struct wanted_parameter *parameter = expected->parameters + expected->texts[at].first_parameter;
        asked_begin(&question, type);
        for (uint32_t left = expected->texts[at].parameter_count; left > 0; left--, parameter++) {
            asked_add_param(&question, parameter->name, parameter->value);
        }
    }
    question.failed |= name.failed;
    bytes_free(&name);
    return asked_takes(&question, text, words->judge->shared->datatypes);
}

/* Whether the values of a datatype depend on the prefixes around them: the library is not asked for these. */
static bool has_context(const struct wanted_text *type) {
    return span_is(type->library, XSD) && (span_is(type->name, "QName") || span_is(type->name, "NOTATION"));
}

/* The datatype that each text has to be of, whatever its parameters. NULL: there is a value, or another datatype, or the prefixes around count. */
static const struct wanted_text *only_type(const struct expected *expected) {
    const struct wanted_text *first = expected->texts;
    for (uint32_t at = 0; at < expected->text_count; at++) {
        const struct wanted_text *text = &expected->texts[at];
        if (text->is_value || has_context(text) || !span_equal(text->library, first->library) || !span_equal(text->name, first->name)) {
            return NULL;
        }
    }
    return expected->text_count == 0 ? NULL : first;
}

/* ---- lists */

/* Whether the token is one of what is expected, if excepts do not count. */
static bool is_expected(const struct words *words, const struct expected *expected, struct span token) {
    const struct wanted_text *only = only_type(expected);
    return only != NULL && is_of_type(words, only, token) && (expected->parameter_count == 0 || is_excepted(words, expected, token));
}

/* Says what may be in the place of a token, unless that does not tell what is wrong with it. False: nothing was said. */
static bool say_tokens(struct words *words, const struct list_fault *fault, const char *before) {
    struct answer tokens = NO_ANSWER;
    struct words inner = *words;
    struct expected expected;
    inner.answer = &tokens;
    if (expected_open(&expected, (struct span){fault->expected.data, fault->expected.length}) &&
        (fault->kind == LIST_SHORT || !is_expected(words, &expected, fault->token))) {
        add_texts(&inner, &expected);
        sort_items(&tokens);
        say_expected(&inner, before);
    }
    words->line->failed |= expected.failed || tokens.expected.failed;
    bool is_said = tokens.expected_count > 0;
    expected_close(&expected);
    answer_free(&tokens);
    return is_said;
}

/* Finds which token of a text of the element is at fault, or of a value of the attribute that is wrong. */
static void find_token(const struct words *words, struct span text, bool is_cut, struct list_fault *fault) {
    const struct event_attribute *attribute = finding_attribute(words->found);
    struct event_name name = {{"", 0}, finding_local(words->found), finding_uri(words->found)};
    struct list_text list = {&name, attribute == NULL ? NULL : &attribute->name, text, is_cut};
    list_fault_find(words->judge, &list, fault);
}

/* Says a text that is no list in parentheses, and which token of it is wrong, if that is found. */
static void say_no_list(struct words *words, struct span text, bool is_whole) {
    struct list_fault fault = NO_LIST_FAULT;
    find_token(words, text, !is_whole, &fault);
    say(words, " (");
    say_quoted(words, text);
    if (fault.kind == LIST_SHORT) {
        say(words, ": it ends too early");
        say_tokens(words, &fault, "; expected ");
    } else if (fault.kind == LIST_WRONG || fault.kind == LIST_LONG) {
        say(words, ": ");
        say_quoted(words, fault.token);
        bytes_add(&words->answer->token, fault.token.data, fault.token.length);
        say(words, " is not allowed here");
        say(words, fault.kind == LIST_LONG ? "; expected the end of the list" : "");
        say_tokens(words, &fault, "; expected ");
    }
    say(words, ")");
    bytes_free(&fault.expected);
}

/* Says which tokens a list may begin with, if it has none. False: nothing was said. */
static bool say_first_tokens(struct words *words, const char *before) {
    struct list_fault fault = NO_LIST_FAULT;
    find_token(words, (struct span){"", 0}, false, &fault);
    bool is_said = fault.kind == LIST_SHORT && say_tokens(words, &fault, before);
    bytes_free(&fault.expected);
    return is_said;
}

static void tell_incomplete(struct words *words) {
    const struct expected *expected = &words->expected;
    bool is_list = false;
    words->answer->reason = REASON_INCOMPLETE;
    say(words, ": ");
    say_element(words, found_name(words));
    say(words, " ends too early");
    add_classes(words, expected, (struct span){"", 0});
    add_texts(words, expected);
    sort_items(words->answer);
    if (words->answer->expected_count == 0) {
        add_any_text(words, expected);
        is_list = words->answer->expected_count > 0 && say_first_tokens(words, ": expected "); /* an end may come in place of any other text */
    }
    if (!is_list) {
        say_expected(words, ": expected ");
    }
}

/* ---- values */

/* Adds what a text may be. If that is only a datatype, it is returned. */
static const struct wanted_text *add_wanted(struct words *words, const struct expected *expected) {
    const struct wanted_text *only = only_type(expected);
    add_texts(words, expected);
    sort_items(words->answer);
    if (only != NULL) {
        add_datatype(&words->answer->datatype, only);
    }
    return only;
}

/* Says that a value is wrong of which not one datatype is expected. A string that no value and no datatype could be is for a list. */
static void say_of_several(struct words *words, struct span text, bool is_whole) {
    if (words->answer->expected_count == 0) {
        say(words, " is no list that the schema allows");
        say_no_list(words, text, is_whole);
        return;
    }
    say(words, " is wrong");
    say_text(words, text);
    say_expected(words, "; expected ");
}

/* Says that a value is wrong, and what it may be. `is_whole`: the text is not cut. */
static void say_wrong(struct words *words, const struct expected *expected, struct span text, bool is_whole) {
    const struct wanted_text *only = add_wanted(words, expected);
    if (only == NULL) {
        say_of_several(words, text, is_whole);
        return;
    }
    struct span type = {words->answer->datatype.data, words->answer->datatype.length};
    bool is_of_it = !is_whole || is_of_type(words, only, text);
    say(words, !is_of_it ? " is no " : span_is(only->library, XSD) ? " is an " : " is a ");
    say_span(words, type);
    say(words, is_of_it ? " that the schema does not allow" : "");
    say_text(words, text);
    if (is_of_it && expected->parameter_count > 0 && !(is_whole && is_excepted(words, expected, text))) {
        say_expected(words, "; expected ");
    }
}

static void tell_text_value(struct words *words) {
    words->answer->reason = REASON_TEXT_VALUE;
    say(words, ": the text of ");
    say_element(words, around(words));
    say_wrong(words, &words->in_place, found_text(words), !words->found->is_cut);
}

/* ---- attributes */

/* Begins what is said of the attribute that is wrong. */
static const struct event_attribute *say_attribute(struct words *words, const char *after) {
    const struct event_attribute *attribute = finding_attribute(words->found);
    struct bytes *name = &words->answer->attribute;
    add_written(name, &attribute->name);
    say(words, ": attribute ");
    say_span(words, (struct span){name->data, name->length});
    say(words, after);
    say_element(words, found_name(words));
    return attribute;
}

/* Whether the tag has an attribute of this name. */
static bool has_attribute(const struct words *words, struct span uri, struct span local) {
    bool is_there = false;
    for (size_t at = 0; at < words->found->attribute_count && !is_there; at++) {
        const struct event_name *name = &words->found->attributes[at].name;
        is_there = span_equal(name->uri, uri) && span_equal(name->local, local);
    }
    return is_there;
}

/* Whether the last item of a list is there earlier too. Then it is removed. */
static bool drop_double(struct answer *answer, size_t begin) {
    struct bytes *list = &answer->expected;
    if (list->failed) {
        return false;
    }
    for (const char *at = list->data; at < list->data + begin; at += strlen(at) + 1) {
        if (strcmp(at, list->data + begin) == 0) {
            list->length = begin;
            answer->expected_count--;
            return true;
        }
    }
    return false;
}

/* Adds the names of attributes from this one on that the tag does not have. One that is nearly `name` is kept, unless that is empty. */
static void add_attributes(struct words *words, uint32_t class, struct span name) {
    for (; class != 0; class = words->options.classes[class].next) {
        const struct wanted_class *wanted = &words->options.classes[class];
        size_t begin = words->answer->expected.length;
        if (wanted->kind == WANTED_NAME && !has_attribute(words, wanted->uri, wanted->local)) {
            add_scoped(&words->answer->expected, &words->judge->scope, wanted->uri, wanted->local, true);
            end_item(words->answer);
            if (!drop_double(words->answer, begin) && name.length > 0) {
                keep_near(words, name, wanted->local, begin);
            }
        }
    }
    sort_items(words->answer);
}

/* Says that an attribute, or its value, is wrong only beside those before it. */
static void say_together(struct words *words) {
    const struct event_attribute *attribute = say_attribute(words, " of ");
    say(words, " does not go with the others");
    say_text(words, attribute->value);
}

static void tell_attribute_not_allowed(struct words *words) {
    const struct event_name *name = &finding_attribute(words->found)->name;
    words->answer->reason = REASON_ATTRIBUTE;
    if (expected_has(&words->tag, name->uri, name->local)) {
        say_together(words);
    } else {
        say_attribute(words, " is not allowed in ");
    }
    add_attributes(words, words->options.first, name->local);
    say_expected(words, "; expected ");
    say_near(words);
}

/* Tells that the value of an attribute is wrong, or wrong only beside the attributes before it. */
static void tell_attribute_value(struct words *words) {
    words->answer->reason = REASON_ATTRIBUTE_VALUE;
    if (words->found->is_right_alone) {
        say_together(words);
        add_wanted(words, &words->options);
        say_expected(words, "; expected ");
    } else {
        const struct event_attribute *attribute = say_attribute(words, " of ");
        say_wrong(words, &words->options, attribute->value, true);
    }
}

/* Tells that attributes are missing, and which could be there, since none is required by itself. */
static void tell_some_missing(struct words *words) {
    say(words, ": ");
    say_element(words, found_name(words));
    say(words, " lacks attributes");
    add_attributes(words, words->options.first, (struct span){"", 0});
    say_expected(words, "; expected ");
}

/* Tells that attributes are missing, and which, if some are required by themselves. */
static void tell_missing(struct words *words) {
    struct answer *answer = words->answer;
    answer->reason = REASON_MISSING;
    add_attributes(words, words->options.required, (struct span){"", 0});
    if (answer->expected_count == 0 || answer->expected.failed) {
        tell_some_missing(words);
        return;
    }
    say(words, ": ");
    say_element(words, found_name(words));
    say(words, answer->expected_count == 1 ? " lacks attribute " : " lacks attributes ");
    say_list(words, &answer->expected, answer->expected_count, " and ");
    for (size_t at = 0; at + 1 < answer->expected.length; at++) {
        bytes_add_byte(&answer->attribute, answer->expected.data[at] == '\0' ? ' ' : answer->expected.data[at]);
    }
}

/* ---- all of them */

/* Sets what is at the place. */
static void set_place(const struct words *words) {
    const struct finding *found = words->found;
    const struct event_attribute *attribute = finding_attribute(found);
    struct answer *answer = words->answer;
    bool is_text = finding_is_text(found);
    answer->place = is_text ? found->text_place : found->place;
    answer->stands = is_text ? STANDS_TEXT : attribute != NULL ? STANDS_ATTRIBUTE : found->is_end ? STANDS_END : STANDS_TAG;
    if (attribute != NULL) {
        add_written(&answer->name, &attribute->name);
    } else {
        const struct bytes *name = is_text ? &found->text : &found->name;
        bytes_add(&answer->name, name->data, name->length);
    }
}

/* Tells why nothing can follow. */
static void tell_reason(struct words *words) {
    switch (words->found->reason.kind) {
    case RNCV_REASON_ELEMENT:
        tell_element(words);
        break;
    case RNCV_REASON_ATTRIBUTE:
        tell_attribute_not_allowed(words);
        break;
    case RNCV_REASON_VALUE:
        tell_attribute_value(words);
        break;
    case RNCV_REASON_MISSING:
        tell_missing(words);
        break;
    case RNCV_REASON_TEXT:
        tell_text_not_allowed(words);
        break;
    case RNCV_REASON_TEXT_VALUE:
        tell_text_value(words);
        break;
    default:
        tell_incomplete(words);
    }
}

static bool open_expected(struct expected *expected, const struct bytes *written) {
    return expected_open(expected, (struct span){written->data, written->length});
}

static bool has_failed(const struct words *words) {
    const struct answer *answer = words->answer;
    return words->near.failed || words->expected.failed || words->in_place.failed || words->tag.failed || words->options.failed ||
           answer->expected.failed || answer->attribute.failed || answer->datatype.failed || answer->token.failed;
}

void tell(struct judge *judge, const struct finding *found, struct answer *answer) {
    static const struct expected nothing = {.first = 0};
    struct words words = {judge, found, answer, &answer->message, nothing, nothing, nothing, nothing, NO_BYTES, NOT_NEAR};
    rncv_verdict verdict;
    rncv_events_finish(&judge->schema, &verdict); /* one may be in progress */
    if (found->is_lost || !finding_is_told(found)) {
        answer->stands = STANDS_NOT_KNOWN;
        return;
    }
    set_place(&words);
    bool has_all = open_expected(&words.expected, &found->expected) && open_expected(&words.in_place, &found->in_place) &&
                   open_expected(&words.tag, &found->tag) && open_expected(&words.options, &found->options);
    if (has_all) {
        tell_reason(&words);
    }
    answer->message.failed |= has_failed(&words);
    expected_close(&words.expected);
    expected_close(&words.in_place);
    expected_close(&words.tag);
    expected_close(&words.options);
    bytes_free(&words.near);
}
