#include "list_fault.h"

#include "expected.h"
#include "lists.h"
#include "xml_names.h"

enum { MOST_BYTES = 1048576 /* of a text */ };

/* A text that is judged by a schema of lists. */
struct list_search {
    rncv_schema schema;
    uint64_t since; /* the place after which nothing valid can follow; 0: none is known */
};

/* ---- tokens */

/* The length of the text up to the first blank, or up to the first byte that is none. */
static size_t length_until(struct span text, bool is_blank) {
    size_t length = 0;
    while (length < text.length && is_blank_byte(text.data[length]) != is_blank) {
        length++;
    }
    return length;
}

static void cut_front(struct span *text, size_t length) {
    *text = (struct span){text->data + length, text->length - length};
}

/* Takes the first token of a text. It is empty if there is none. */
static struct span take_token(struct span *text) {
    cut_front(text, length_until(*text, false));
    struct span token = {text->data, length_until(*text, true)};
    cut_front(text, token.length);
    return token;
}

/* The text up to its last blank, since what is behind may be cut. */
static struct span whole_tokens(struct span text) {
    while (text.length > 0 && !is_blank_byte(text.data[text.length - 1])) {
        text.length--;
    }
    return text;
}

/* ---- one content */

static bool look(struct list_search *search) {
    return rncv_events_invalid_since(&search->schema, &search->since) == RNCV_DONE;
}

static bool start(struct list_search *search, const char *name) {
    return rncv_events_start(&search->schema, 1, NULL, 0, (const uint8_t *)name, 1, NULL, 0) == RNCV_DONE && look(search);
}

/* Passes a token, and finds whether something valid can follow it. */
static enum list_fault_kind pass_token(struct list_search *search, struct span token) {
    if (!start(search, "t")) {
        return LIST_UNKNOWN;
    }
    if (search->since > 0) {
        return LIST_LONG;
    }
    bool is_passed = library_text(&search->schema, token) == RNCV_DONE && rncv_events_end(&search->schema, 1) == RNCV_DONE;
    return !is_passed || !look(search) ? LIST_UNKNOWN : search->since > 0 ? LIST_WRONG : LIST_GOOD;
}

/* Finds whether tokens are missing behind those that were passed, and which could come. */
static enum list_fault_kind pass_end(struct list_search *search, struct bytes *expected) {
    rncv_reason reason;
    if (rncv_events_end_reason(&search->schema, &reason) != RNCV_DONE) {
        return LIST_UNKNOWN;
    }
    if (reason.kind == RNCV_REASON_NONE) {
        return LIST_GOOD;
    }
    return start(search, "t") && search->since == 0 && expected_get(&search->schema, expected) ? LIST_SHORT : LIST_UNKNOWN;
}

/* Passes the tokens up to the first one at fault. */
static void pass_tokens(struct list_search *search, const struct list_text *text, struct list_fault *fault) {
    struct span left = text->is_cut ? whole_tokens(text->text) : text->text;
    fault->kind = LIST_GOOD;
    while (fault->kind == LIST_GOOD && (fault->token = take_token(&left)).length > 0) {
        fault->kind = pass_token(search, fault->token);
    }
    if (fault->kind == LIST_GOOD) {
        fault->kind = text->is_cut ? LIST_UNKNOWN : pass_end(search, &fault->expected);
    }
    if (fault->kind == LIST_WRONG && !expected_get_in_place(&search->schema, &fault->expected)) {
        fault->kind = LIST_UNKNOWN;
    }
}

/* Finds the fault by a schema of lists. */
static void find_by(struct judge *judge, const struct bytes *schema, const struct list_text *text, struct list_fault *fault) {
    struct list_search search = {RNCV_NOTHING, 0};
    rncv_file file = {(const uint8_t *)"", 0, (const uint8_t *)schema->data, schema->length};
    rncv_fault place;
    if (rncv_compile_with(&file, 1, judge->shared->datatypes, &search.schema, &place) == RNCV_DONE && rncv_events_begin(&search.schema) == RNCV_DONE &&
        start(&search, "l") && search.since == 0) {
        pass_tokens(&search, text, fault);
    }
    rncv_schema_free(&search.schema);
}

/* ---- all contents */

/* Finds the fault by the lists of a content. LIST_GOOD: the content is none of which the text is at fault. */
static void find_in(struct judge *judge, struct declared *declared, struct part content, const struct list_text *text, struct list_fault *fault) {
    struct part_list lists = NO_PARTS;
    struct bytes schema = NO_BYTES;
    bool is_known = lists_in(declared, content, &lists);
    if (is_known && lists.count == 0) {
        fault->kind = LIST_GOOD;
    } else if (is_known && lists_schema(declared, &lists, &schema)) {
        find_by(judge, &schema, text, fault);
    }
    part_list_free(&lists);
    bytes_free(&schema);
}

/* Adds a fault to that of other contents, and keeps what holds for all of them. */
static void add_fault(struct list_fault *fault, const struct list_fault *other) {
    struct span expected = {other->expected.data, other->expected.length};
    bool is_first = fault->kind == LIST_GOOD;
    bool is_same = fault->kind == other->kind && fault->token.data == other->token.data;
    if (other->kind == LIST_GOOD) {
        return;
    }
    if (is_first) {
        bytes_add(&fault->expected, expected.data, expected.length);
    } else if (!span_equal(expected, (struct span){fault->expected.data, fault->expected.length})) {
        bytes_clear(&fault->expected);
    }
    fault->kind = is_first || is_same ? other->kind : LIST_UNKNOWN;
    fault->token = other->token;
}

void list_fault_find(struct judge *judge, const struct list_text *text, struct list_fault *fault) {
    struct declared *declared = judge->form == NULL ? &judge->declared : judge->form;
    struct part_list contents = NO_PARTS;
    bool is_known = text->text.length <= MOST_BYTES && declared_open(declared, &judge->schema) &&
                    lists_contents(declared, text->element, text->attribute, &contents);
    fault->kind = is_known ? LIST_GOOD : LIST_UNKNOWN;
    for (uint32_t at = 0; at < contents.count && fault->kind != LIST_UNKNOWN; at++) {
        struct list_fault found = NO_LIST_FAULT;
        find_in(judge, declared, contents.parts[at], text, &found);
        add_fault(fault, &found);
        bytes_free(&found.expected);
    }
    fault->kind = fault->expected.failed ? LIST_UNKNOWN : fault->kind;
    part_list_free(&contents);
}
