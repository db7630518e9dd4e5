#include "schema_annotations.h"

#include "annotation_names.h"
#include "xml_names.h"

#include <string.h>

enum {
    MOST_BRACKETS = 128, /* in one another; with one more the library says S7 */
    MOST_BYTES = 1048576 /* of a file; with one more it says S2 */
};

struct range {
    size_t from;
    size_t to;
};

struct reader {
    struct tokens tokens;
    struct token window[3]; /* the next tokens */
    int brackets;           /* that are open here */
    bool has_ended;         /* at a token that continues no sentence, or where brackets nest too deep */
    size_t end;             /* where it has ended, in the file */
    const char *fault;      /* why, in words, if a rule for what is in annotations says so */
    bool is_too_deep;
    struct annotation_names names;
    struct bytes blanks; /* ranges of the file that become blank */
    bool is_root; /* this is the file's pattern, and not in braces in it */
};

static void read_pattern(struct reader *reader);
static void read_class(struct reader *reader);
static void read_content(struct reader *reader);

static struct token *now(struct reader *reader) {
    return &reader->window[0];
}

static void advance(struct reader *reader) {
    if (reader->has_ended) {
        return;
    }
    reader->window[0] = reader->window[1];
    reader->window[1] = reader->window[2];
    reader->window[2] = tokens_next(&reader->tokens);
}

/* The token there continues no sentence. From here on nothing is read. */
static void end_at(struct reader *reader, size_t at, const char *fault) {
    if (!reader->has_ended) {
        reader->has_ended = true;
        reader->end = at;
        reader->fault = fault;
    }
}

static void end_here(struct reader *reader) {
    end_at(reader, now(reader)->at, NULL);
}

static bool takes(struct reader *reader, char sign) {
    bool is_there = !reader->has_ended && is_sign(now(reader), sign);
    if (is_there) {
        advance(reader);
    }
    return is_there;
}

static void wants(struct reader *reader, char sign) {
    if (!takes(reader, sign)) {
        end_here(reader);
    }
}

static void take_name(struct reader *reader) {
    if (is_name(now(reader)) && !reader->has_ended) {
        advance(reader);
    } else {
        end_here(reader);
    }
}

static void take_identifier(struct reader *reader) {
    if (is_identifier(now(reader)) && !reader->has_ended) {
        advance(reader);
    } else {
        end_here(reader);
    }
}

static void take_literal(struct reader *reader) {
    do {
        if (now(reader)->kind != TOKEN_LITERAL) {
            end_here(reader);
            return;
        }
        advance(reader);
    } while (takes(reader, '~'));
}

/* What is in brackets. */
static void bracketed(struct reader *reader, char open, char close, void (*inside)(struct reader *)) {
    bool was_root = reader->is_root;
    reader->is_root = was_root && open == '(';
    wants(reader, open);
    if (++reader->brackets > MOST_BRACKETS && !reader->has_ended) {
        reader->is_too_deep = true;
        end_here(reader);
    }
    if (!reader->has_ended) {
        inside(reader);
    }
    wants(reader, close);
    reader->brackets--;
    reader->is_root = was_root;
}

static bool begins_element(struct reader *reader) {
    return is_name(&reader->window[0]) && is_sign(&reader->window[1], '[');
}

/* Whether the next token is a name by Namespaces in XML. The tokens take more characters, and elsewhere the library refuses these. */
static bool is_xml_name(struct reader *reader) {
    size_t colon;
    return is_qname(now(reader)->text, &colon);
}

/* An annotation that is read. */
struct annotation {
    size_t from;  /* where the blanks begin */
    size_t end;   /* .. and end, if it has ended */
    size_t depth; /* of the brackets */
    bool may_be_attribute;
    bool is_lead; /* it is `[ .. ]` and not `a:b [ .. ]` */
};

/* The attributes of an element are complete: each is there once. */
static void end_attributes(struct reader *reader, struct annotation *annotation) {
    size_t at;
    if (annotation->may_be_attribute && annotation_attribute_twice(&reader->names, &at)) {
        reader->has_ended = false; /* what is behind it is at fault, if anything is */
        end_at(reader, at, "this attribute is in the annotation already");
    }
    annotation->may_be_attribute = false;
}

/* Reads the name of an element or an attribute, and the sign behind it. */
static void take_annotation_name(struct reader *reader, const struct annotation *annotation, bool is_attribute) {
    bool is_foreign = annotation->depth == (annotation->is_lead ? 1 : 0);
    const struct token *name = now(reader);
    if (!is_xml_name(reader) || (is_attribute && is_foreign && !has_colon(name))) {
        end_here(reader);
        return;
    }
    const char *fault = is_attribute ? annotation_attribute_fault(&reader->names, name, is_foreign)
                                     : annotation_element_fault(&reader->names, name, is_foreign);
    if (fault != NULL) {
        end_at(reader, name->at, fault);
        return;
    }
    advance(reader);
    advance(reader);
}

/* One part of an annotation: an attribute, an element's beginning or end, or a text. Attributes come first. No text is in `[ .. ]` itself. */
static void take_part(struct reader *reader, struct annotation *annotation) {
    if (annotation->may_be_attribute && is_name(now(reader)) && is_sign(&reader->window[1], '=')) {
        take_annotation_name(reader, annotation, true);
        if (!reader->has_ended) {
            take_literal(reader);
        }
        return;
    }
    end_attributes(reader, annotation);
    if (reader->has_ended) {
        return;
    }
    if (begins_element(reader)) {
        take_annotation_name(reader, annotation, false);
        annotation->depth++;
        annotation->may_be_attribute = true;
    } else if (is_sign(now(reader), ']')) {
        advance(reader);
        annotation->depth--;
    } else if (annotation->is_lead && annotation->depth == 1) {
        end_here(reader);
    } else {
        take_literal(reader);
    }
}

/* Notes that some bytes become blank. */
static void blank(struct reader *reader, size_t from, size_t to) {
    struct range range = {from, to};
    bytes_add(&reader->blanks, &range, sizeof range);
}

/* Reads an annotation to its end. One at fault becomes blank up to the fault, which is refused there. One without an end is left: the library refuses it. */
static void read_annotation(struct reader *reader, struct annotation *annotation) {
    do {
        annotation->end = now(reader)->end;
        take_part(reader, annotation);
    } while (!reader->has_ended && annotation->depth > 0);
    if (reader->has_ended) {
        end_attributes(reader, annotation);
        if (reader->fault != NULL || now(reader)->kind != TOKEN_NONE) {
            blank(reader, annotation->from, reader->end);
        }
    }
}

/* Reads an annotation element, and writes blanks over it, and over what comes before it from an offset on. */
static void blank_element(struct reader *reader, size_t from) {
    struct annotation annotation = {.from = from};
    if (!begins_element(reader)) {
        if (!reader->has_ended && now(reader)->kind != TOKEN_NONE) {
            blank(reader, from, now(reader)->at);
        }
        end_here(reader);
        return;
    }
    read_annotation(reader, &annotation);
    if (!reader->has_ended) {
        blank(reader, from, annotation.end);
    }
}

/* An annotation `[ .. ]` before something. The library skips it, whatever is in it. */
static void take_lead(struct reader *reader) {
    if (!reader->has_ended && is_sign(now(reader), '[')) {
        struct annotation annotation = {.from = now(reader)->at, .depth = 1, .may_be_attribute = true, .is_lead = true};
        advance(reader);
        read_annotation(reader, &annotation);
    }
}

static bool begins_follow(const struct reader *reader) {
    return is_sign(&reader->window[0], '>') && is_sign(&reader->window[1], '>') && reader->window[0].end == reader->window[1].at;
}

/* Annotations `>> a:b [ .. ]` that follow something. */
static void take_follows(struct reader *reader) {
    while (!reader->has_ended && begins_follow(reader)) {
        size_t from = now(reader)->at;
        advance(reader);
        advance(reader);
        blank_element(reader, from);
    }
}

static void read_basic(struct reader *reader) {
    take_lead(reader);
    if (is_sign(now(reader), '(')) {
        bracketed(reader, '(', ')', read_class);
    } else if (is_names(now(reader)) || is_sign(now(reader), '*')) {
        advance(reader);
        if (takes(reader, '-')) {
            take_lead(reader);
            if (is_sign(now(reader), '(')) {
                bracketed(reader, '(', ')', read_class);
            } else if (is_names(now(reader)) || is_sign(now(reader), '*')) {
                advance(reader);
            } else {
                take_name(reader);
            }
        }
    } else {
        take_name(reader);
    }
    take_follows(reader);
}

static void read_class(struct reader *reader) {
    do {
        read_basic(reader);
    } while (takes(reader, '|'));
}

static void read_params(struct reader *reader) {
    while (!reader->has_ended && !is_sign(now(reader), '}')) {
        take_lead(reader);
        take_name(reader);
        wants(reader, '=');
        take_literal(reader);
    }
}

/* `inherit = p`, if it is there. */
static void take_inherit(struct reader *reader) {
    if (!reader->has_ended && is_word(now(reader), "inherit")) {
        advance(reader);
        wants(reader, '=');
        take_name(reader);
    }
}

/* A datatype, with a value or with parameters. */
static void read_type(struct reader *reader) {
    advance(reader);
    if (now(reader)->kind == TOKEN_LITERAL) {
        take_literal(reader);
    } else if (is_sign(now(reader), '{')) {
        bracketed(reader, '{', '}', read_params);
    }
}

static void read_keyword(struct reader *reader) {
    struct token token = *now(reader);
    if (is_word(&token, "string") || is_word(&token, "token")) {
        read_type(reader);
        return;
    }
    advance(reader);
    if (is_word(&token, "element") || is_word(&token, "attribute")) {
        read_class(reader);
        bracketed(reader, '{', '}', read_pattern);
    } else if (is_word(&token, "list") || is_word(&token, "mixed")) {
        bracketed(reader, '{', '}', read_pattern);
    } else if (is_word(&token, "grammar")) {
        bracketed(reader, '{', '}', read_content);
    } else if (is_word(&token, "external")) {
        take_literal(reader);
        take_inherit(reader);
    } else if (is_word(&token, "parent")) {
        take_identifier(reader);
    }
}

/* Whether the token is a keyword that begins a pattern. */
static bool begins_pattern(const struct token *token) {
    static const char *const words[] = {"element", "attribute", "list", "mixed", "grammar", "external", "parent", "string", "token", "empty", "text",
                                        "notAllowed"};
    for (size_t at = 0; at < sizeof words / sizeof *words; at++) {
        if (is_word(token, words[at])) {
            return true;
        }
    }
    return false;
}

/* A primary pattern with what comes before it. */
static void read_primary(struct reader *reader) {
    take_lead(reader);
    if (reader->has_ended) {
        return;
    }
    if (is_sign(now(reader), '(')) {
        bracketed(reader, '(', ')', read_pattern);
    } else if (now(reader)->kind == TOKEN_LITERAL) {
        take_literal(reader);
    } else if (is_identifier(now(reader))) {
        advance(reader);
    } else if (is_name(now(reader)) && now(reader)->kind == TOKEN_NAME) {
        read_type(reader);
    } else if (begins_pattern(now(reader))) {
        read_keyword(reader);
    } else {
        end_here(reader);
    }
}

/* In the XML syntax annotations that follow are beside an element. Nothing is beside the root, so none follow a part of a whole file's pattern. */
static void take_pattern_follows(struct reader *reader) {
    if (reader->is_root && begins_follow(reader)) {
        end_here(reader);
    }
    take_follows(reader);
}

static void read_particle(struct reader *reader) {
    read_primary(reader);
    if (takes(reader, '-')) {
        read_primary(reader); /* what a datatype excepts */
    }
    take_pattern_follows(reader);
    if (takes(reader, '?') || takes(reader, '*') || takes(reader, '+')) {
        take_pattern_follows(reader);
    }
}

static void read_pattern(struct reader *reader) {
    read_particle(reader);
    char sign = is_sign(now(reader), ',') ? ',' : is_sign(now(reader), '&') ? '&' : '|';
    while (takes(reader, sign)) {
        read_particle(reader);
    }
}

/* How many tokens the method after the next token has: `=`, `|=` or `&=`; 0: there is none. */
static int method_tokens(const struct reader *reader) {
    const struct token *sign = &reader->window[1];
    bool has_two = (is_sign(sign, '|') || is_sign(sign, '&')) && is_sign(&reader->window[2], '=') && sign->end == reader->window[2].at;
    return is_sign(sign, '=') ? 1 : has_two ? 2 : 0;
}

static bool begins_component(struct reader *reader) {
    const struct token *token = now(reader);
    bool is_named = (is_word(token, "start") || is_identifier(token)) && method_tokens(reader) > 0;
    return is_named || is_word(token, "div") || is_word(token, "include");
}

static void read_component(struct reader *reader) {
    if (is_word(now(reader), "div")) {
        advance(reader);
        bracketed(reader, '{', '}', read_content);
    } else if (is_word(now(reader), "include")) {
        advance(reader);
        take_literal(reader);
        take_inherit(reader);
        if (is_sign(now(reader), '{')) {
            bracketed(reader, '{', '}', read_content);
        }
    } else {
        for (int left = 1 + method_tokens(reader); left > 0; left--) {
            advance(reader);
        }
        read_pattern(reader);
    }
}

static bool begins_annotation(struct reader *reader) {
    return begins_element(reader) && (now(reader)->kind == TOKEN_NAME || is_identifier(now(reader)));
}

/* Components and annotation elements. */
static void read_content(struct reader *reader) {
    while (!reader->has_ended) {
        if (begins_annotation(reader)) {
            blank_element(reader, now(reader)->at);
            continue;
        }
        take_lead(reader);
        if (!begins_component(reader)) {
            return;
        }
        read_component(reader);
    }
}

/* The URI of a declaration, of a prefix if it is one of a namespace. */
static void read_uri(struct reader *reader, bool has_prefix) {
    do {
        if (has_prefix && now(reader)->kind == TOKEN_LITERAL) {
            add_literal(&reader->names.uris, now(reader));
        }
        if (now(reader)->kind != TOKEN_LITERAL) {
            end_here(reader);
            return;
        }
        advance(reader);
    } while (takes(reader, '~'));
}

static void read_declarations(struct reader *reader) {
    while (!reader->has_ended && (is_word(now(reader), "namespace") || is_word(now(reader), "default") || is_word(now(reader), "datatypes"))) {
        bool has_prefix = !is_word(now(reader), "datatypes");
        if (is_word(now(reader), "default")) {
            advance(reader);
        }
        advance(reader); /* the library refuses another word than `namespace` here */
        has_prefix = has_prefix && is_name(now(reader));
        if (has_prefix) {
            annotation_prefix(&reader->names, now(reader)->text);
        }
        if (is_name(now(reader))) {
            advance(reader);
        }
        wants(reader, '=');
        if (!is_word(now(reader), "inherit")) {
            read_uri(reader, has_prefix);
            continue;
        }
        advance(reader);
        if (has_prefix) {
            annotation_inherits(&reader->names);
        }
    }
}

static void read_body(struct reader *reader) {
    bool is_grammar = begins_annotation(reader);
    if (!is_grammar) {
        take_lead(reader);
        is_grammar = begins_component(reader);
    }
    if (is_grammar) {
        read_content(reader);
    } else if (now(reader)->kind != TOKEN_NONE) {
        reader->is_root = true;
        read_pattern(reader);
    }
}

static void read_file(struct reader *reader) {
    read_declarations(reader);
    if (!reader->has_ended) {
        read_body(reader);
    }
    if (now(reader)->kind != TOKEN_NONE) {
        end_here(reader);
    }
}

/* Writes the blanks. The token where a file is no sentence becomes one that the library refuses there, and what follows becomes blank: signs that the library
 * does not have may be in it. */
static void write_blanks(struct reader *reader, char *bytes, size_t length) {
    bool is_spoilt = reader->has_ended && !reader->is_too_deep && (reader->fault != NULL || now(reader)->kind != TOKEN_NONE);
    if (is_spoilt) {
        blank(reader, reader->end, length);
    }
    for (size_t range = 0; range < reader->blanks.length; range += sizeof(struct range)) {
        struct range blanks;
        memcpy(&blanks, reader->blanks.data + range, sizeof blanks);
        for (size_t at = blanks.from; at < blanks.to; at++) {
            bytes[at] = bytes[at] == '\n' || bytes[at] == '\r' ? bytes[at] : ' ';
        }
    }
    if (is_spoilt) {
        bytes[reader->end] = ']';
    }
}

/* Reads the file, and writes the blanks if memory lasts. */
static bool blank_file(struct reader *reader, char *bytes, size_t length, struct annotations *found) {
    for (int token = 0; token < 3; token++) {
        advance(reader);
    }
    read_file(reader);
    bool is_good = !reader->blanks.failed && !annotation_names_failed(&reader->names);
    if (is_good && reader->blanks.length > 0) {
        *found = (struct annotations){true, reader->fault, reader->end};
        if (!reader->is_too_deep) {
            bytes_reserve(&reader->blanks, sizeof(struct range));
            is_good = !reader->blanks.failed;
        }
    }
    if (is_good && found->is_changed) {
        write_blanks(reader, bytes, length);
    }
    return is_good;
}

bool annotations_blank(char *bytes, size_t length, struct annotations *found) {
    struct reader reader = {.names = NO_ANNOTATION_NAMES, .blanks = NO_BYTES};
    *found = (struct annotations){false, NULL, 0};
    if (length > MOST_BYTES || !is_text(bytes, length)) {
        return true;
    }
    bool is_good = tokens_open(&reader.tokens, bytes, length);
    if (is_good && length > 0 && memchr(reader.tokens.text.data, '[', reader.tokens.text.length) != NULL) {
        is_good = blank_file(&reader, bytes, length, found);
    }
    tokens_close(&reader.tokens);
    annotation_names_free(&reader.names);
    bytes_free(&reader.blanks);
    return is_good;
}
