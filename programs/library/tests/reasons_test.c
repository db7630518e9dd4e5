/* Why a start or an end leaves nothing, what a tag may have behind attributes, what may come in place of a text, and what is held of it. */
#include "testing.h"

#define FIGURES                                                                                                             \
    "datatypes xsd = \"http://www.w3.org/2001/XMLSchema-datatypes\"\n"                                                      \
    "start = element book { figure*, size?, (text | note)*, sizes? }\n"                                                      \
    "figure = element figure { attribute id { xsd:integer }, ((attribute src { \"a\" | \"b\" } | attribute of { text })) }\n" \
    "size = element size { xsd:integer }\nnote = element note { size, text }\nsizes = element sizes { size+ }\n"

/* Makes attributes of words, names before values, up to a NULL. Returns how many there are. */
static size_t make_attributes(rncv_attribute attributes[4], const char *const *words) {
    size_t count = 0;
    for (; words != NULL && words[2 * count] != NULL; count++) {
        const char *name = words[2 * count];
        const char *value = words[2 * count + 1];
        attributes[count] = (rncv_attribute){(const uint8_t *)"", 0, (const uint8_t *)name, strlen(name), (const uint8_t *)value, strlen(value)};
    }
    return count;
}

/* What the calls say of a name, and of attributes in their order. */
static rncv_reason reason_of(rncv_schema *schema, const char *local, const char *const *words) {
    rncv_attribute attributes[4];
    rncv_reason reason = {99, 99};
    size_t count = make_attributes(attributes, words);
    CHECK(rncv_events_start_reason(schema, NULL, 0, (const uint8_t *)local, strlen(local), count == 0 ? NULL : attributes, count, &reason) == RNCV_DONE);
    return reason;
}

static int is_reason(rncv_reason reason, int32_t kind, uint64_t attribute) {
    return reason.kind == kind && reason.attribute == attribute;
}

static int32_t start(rncv_schema *schema, uint64_t place, const char *local) {
    return rncv_events_start(schema, place, NULL, 0, (const uint8_t *)local, strlen(local), NULL, 0);
}

static int32_t text(rncv_schema *schema, const char *bytes) {
    return rncv_events_text(schema, (const uint8_t *)bytes, strlen(bytes));
}

static int ends_by(rncv_schema *schema, int32_t kind) {
    rncv_reason reason = {99, 99};
    CHECK(rncv_events_end_reason(schema, &reason) == RNCV_DONE);
    return is_reason(reason, kind, 0);
}

static size_t held_of(rncv_schema *schema) {
    size_t held = 99;
    CHECK(rncv_events_held(schema, &held) == RNCV_DONE);
    return held;
}

/* What may come in place of the text is this, also where only its length is asked for. */
static void check_in_place(rncv_schema *schema, const char *wanted) {
    uint8_t buffer[512];
    size_t length = 99;
    size_t size = strlen(wanted);
    memset(buffer, '.', sizeof buffer);
    CHECK(rncv_expected_in_place(schema, buffer, sizeof buffer, &length) == RNCV_DONE && length == size);
    CHECK(memcmp(buffer, wanted, size) == 0 && buffer[size] == '.');
    if (size > 0) {
        memset(buffer, '.', sizeof buffer);
        length = 99;
        CHECK(rncv_expected_in_place(schema, NULL, 0, &length) == RNCV_SPACE && length == size);
        CHECK(rncv_expected_in_place(schema, buffer, size - 1, &length) == RNCV_SPACE && length == size && buffer[0] == '.');
    }
}

/* Asks what a start may have behind attributes, and what the value of another may be. */
static int32_t options_of(rncv_schema *schema, const char *local, const char *const *words, const char *named, uint8_t *buffer, size_t size, size_t *length) {
    rncv_attribute attributes[4];
    size_t count = make_attributes(attributes, words);
    return rncv_events_tag_options(schema, NULL, 0, (const uint8_t *)local, strlen(local), count == 0 ? NULL : attributes, count, NULL, 0,
                                   (const uint8_t *)named, strlen(named), buffer, size, length);
}

/* It is this text, also where only its length is asked for. */
static void check_options(rncv_schema *schema, const char *local, const char *const *words, const char *named, const char *wanted) {
    uint8_t buffer[512];
    size_t length = 99;
    size_t size = strlen(wanted);
    memset(buffer, '.', sizeof buffer);
    CHECK(options_of(schema, local, words, named, buffer, sizeof buffer, &length) == RNCV_DONE && length == size);
    CHECK(memcmp(buffer, wanted, size) == 0 && buffer[size] == '.');
    if (size > 0) {
        memset(buffer, '.', sizeof buffer);
        length = 99;
        CHECK(options_of(schema, local, words, named, NULL, 0, &length) == RNCV_SPACE && length == size);
        CHECK(options_of(schema, local, words, named, buffer, size - 1, &length) == RNCV_SPACE && length == size && buffer[0] == '.');
    }
}

/* Nothing is left behind the attributes. */
static void check_no_options(rncv_schema *schema, const char *local, const char *const *words) {
    uint8_t buffer[1] = {'.'};
    size_t length = 99;
    CHECK(options_of(schema, local, words, "id", buffer, sizeof buffer, &length) == RNCV_REFUSED && length == 99 && buffer[0] == '.');
}

static int is_invalid_since(rncv_schema *schema, uint64_t wanted) {
    uint64_t place = 99;
    CHECK(rncv_events_invalid_since(schema, &place) == RNCV_DONE);
    return place == wanted;
}

/* Begins a document in the root. */
static void begin(rncv_schema *schema) {
    CHECK(rncv_events_begin(schema) == RNCV_DONE && start(schema, 1, "book") == RNCV_DONE);
}

static void names_and_attributes(rncv_schema *schema) {
    CHECK(rncv_events_begin(schema) == RNCV_DONE);
    CHECK(is_reason(reason_of(schema, "figure", NULL), RNCV_REASON_ELEMENT, 0));
    CHECK(is_reason(reason_of(schema, "book", NULL), RNCV_REASON_NONE, 0));
    begin(schema);
    CHECK(is_reason(reason_of(schema, "book", NULL), RNCV_REASON_ELEMENT, 0));
    CHECK(is_reason(reason_of(schema, "figure", NULL), RNCV_REASON_MISSING, 0));
    CHECK(is_reason(reason_of(schema, "figure", (const char *[]){"id", "1", NULL}), RNCV_REASON_MISSING, 0));
    CHECK(is_reason(reason_of(schema, "figure", (const char *[]){"src", "a", "id", "1", NULL}), RNCV_REASON_NONE, 0));
    CHECK(is_reason(reason_of(schema, "figure", (const char *[]){"src", "a", "id", "x", NULL}), RNCV_REASON_VALUE, 1));
    CHECK(is_reason(reason_of(schema, "figure", (const char *[]){"src", "c", "id", "x", NULL}), RNCV_REASON_VALUE, 0));
    CHECK(is_reason(reason_of(schema, "figure", (const char *[]){"id", "1", "sources", "a", NULL}), RNCV_REASON_ATTRIBUTE, 1));
    /* the order decides which of two that exclude one another is told */
    CHECK(is_reason(reason_of(schema, "figure", (const char *[]){"src", "a", "of", "", "id", "1", NULL}), RNCV_REASON_ATTRIBUTE, 1));
    CHECK(is_reason(reason_of(schema, "figure", (const char *[]){"of", "", "id", "1", "src", "a", NULL}), RNCV_REASON_ATTRIBUTE, 2));
    /* asking changes nothing */
    CHECK(is_invalid_since(schema, 0) && rncv_events_end(schema, 2) == RNCV_DONE && is_invalid_since(schema, 0));
}

/* Why the start that was passed leaves nothing, also behind later calls. */
static void after_a_fault(rncv_schema *schema) {
    begin(schema);
    CHECK(text(schema, "\n") == RNCV_DONE && start(schema, 2, "figure") == RNCV_DONE && is_invalid_since(schema, 2));
    for (int turn = 0; turn < 3; turn++) {
        CHECK(is_reason(reason_of(schema, "figure", NULL), RNCV_REASON_MISSING, 0));
        CHECK(is_reason(reason_of(schema, "figure", (const char *[]){"id", "", NULL}), RNCV_REASON_VALUE, 0));
        CHECK(is_reason(reason_of(schema, "size", NULL), RNCV_REASON_NONE, 0));
        CHECK(ends_by(schema, RNCV_REASON_NONE));
        check_in_place(schema, "element {}figure\nelement {}size\nelement {}note\nelement {}sizes\ntext\n");
        CHECK(start(schema, 3, "any") == RNCV_DONE && text(schema, "some") == RNCV_DONE && rncv_events_end(schema, 4) == RNCV_DONE);
        CHECK(is_invalid_since(schema, 2));
    }
}

#define OF_OR_SRC "attribute {}of\nattribute {}src\n"
#define INTEGER "datatype http://www.w3.org/2001/XMLSchema-datatypes integer\n"

/* What a tag may have is what is left behind its attributes. */
static void tags(rncv_schema *schema) {
    CHECK(rncv_events_begin(schema) == RNCV_DONE);
    check_no_options(schema, "figure", NULL);
    check_options(schema, "book", NULL, "id", "");
    begin(schema);
    for (int turn = 0; turn < 2; turn++) {
        check_options(schema, "figure", NULL, "src", OF_OR_SRC "attribute {}id\nrequired {}id\ntext\nvalue  token b\nvalue  token a\n");
        check_options(schema, "figure", (const char *[]){"id", "1", NULL}, "of", OF_OR_SRC "text\n");
        check_options(schema, "figure", (const char *[]){"id", "1", NULL}, "id", OF_OR_SRC);
        check_options(schema, "figure", (const char *[]){"src", "a", NULL}, "id", "attribute {}id\nrequired {}id\ntext\n" INTEGER);
        check_options(schema, "figure", (const char *[]){"src", "a", NULL}, "of", "attribute {}id\nrequired {}id\n");
        check_options(schema, "figure", (const char *[]){"src", "a", "id", "1", NULL}, "", "");
        check_options(schema, "size", NULL, "id", "");
        check_no_options(schema, "figure", (const char *[]){"src", "c", NULL});
        check_no_options(schema, "figure", (const char *[]){"src", "a", "of", "", NULL});
        check_no_options(schema, "figure", (const char *[]){"id", "1", "id", "1", NULL});
        check_no_options(schema, "other", NULL);
        /* asking changes nothing; in the second turn the start is one in place of this one */
        CHECK(is_invalid_since(schema, turn == 0 ? 0 : 2) && start(schema, 2, "figure") == RNCV_DONE && is_invalid_since(schema, 2));
    }
}

/* Names are compared with their namespaces, and an attribute that may come again stays. */
static void tags_with_namespaces(void) {
    static const char wanted[] = "attribute * except ( {}b {u}a )\nattribute {u}a\nattribute {}b\nrequired {}b\ntext\nvalue  token x\n";
    rncv_schema schema = RNCV_NOTHING;
    uint8_t buffer[512];
    size_t length = 99;
    rncv_attribute other = {(const uint8_t *)"v", 1, (const uint8_t *)"a", 1, (const uint8_t *)"", 0};
    CHECK(compile("namespace n = \"u\" element n:e { attribute b { text }, attribute n:a { \"x\" }?, attribute * - (b | n:a) { empty }* }", &schema) ==
          RNCV_DONE);
    CHECK(rncv_events_begin(&schema) == RNCV_DONE);
    CHECK(rncv_events_tag_options(&schema, (const uint8_t *)"u", 1, (const uint8_t *)"e", 1, &other, 1, (const uint8_t *)"u", 1, (const uint8_t *)"a", 1, buffer,
                                  sizeof buffer, &length) == RNCV_DONE);
    CHECK(length == sizeof wanted - 1 && memcmp(buffer, wanted, length) == 0);
    rncv_schema_free(&schema);
}

/* The text before a start is to blame where none may be, and where the start would leave something without it. */
static void texts_and_starts(rncv_schema *schema) {
    begin(schema);
    CHECK(text(schema, "some") == RNCV_DONE && text(schema, " text") == RNCV_DONE && start(schema, 2, "size") == RNCV_DONE && is_invalid_since(schema, 2));
    CHECK(is_reason(reason_of(schema, "size", NULL), RNCV_REASON_TEXT, 0));
    CHECK(is_reason(reason_of(schema, "note", NULL), RNCV_REASON_NONE, 0));
    CHECK(is_reason(reason_of(schema, "figure", (const char *[]){"of", "", "id", "1", NULL}), RNCV_REASON_TEXT, 0));
    CHECK(is_reason(reason_of(schema, "figure", (const char *[]){"of", "", "id", "x", NULL}), RNCV_REASON_ELEMENT, 0));
    CHECK(is_reason(reason_of(schema, "other", NULL), RNCV_REASON_ELEMENT, 0));
    CHECK(ends_by(schema, RNCV_REASON_NONE));
    check_in_place(schema, "element {}figure\nelement {}size\nelement {}note\nelement {}sizes\ntext\n");
    begin(schema);
    CHECK(start(schema, 2, "sizes") == RNCV_DONE && text(schema, " 1 ") == RNCV_DONE && start(schema, 3, "size") == RNCV_DONE);
    CHECK(is_invalid_since(schema, 3) && ends_by(schema, RNCV_REASON_TEXT));
    CHECK(is_reason(reason_of(schema, "size", NULL), RNCV_REASON_TEXT, 0) && is_reason(reason_of(schema, "other", NULL), RNCV_REASON_TEXT, 0));
    check_in_place(schema, "element {}size\n");
    /* a blank one is as none */
    begin(schema);
    CHECK(start(schema, 2, "sizes") == RNCV_DONE && text(schema, " \n") == RNCV_DONE && start(schema, 3, "other") == RNCV_DONE);
    CHECK(is_reason(reason_of(schema, "other", NULL), RNCV_REASON_ELEMENT, 0) && is_reason(reason_of(schema, "size", NULL), RNCV_REASON_NONE, 0));
    check_in_place(schema, "element {}size\n");
}

/* Ends an element of this name, in the root or in `inside`, behind a text, and checks why it may not end, and what could be in place of the text. */
static void check_end(rncv_schema *schema, const char *local, const char *inside, int32_t kind, const char *in_place) {
    begin(schema);
    CHECK(start(schema, 2, local) == RNCV_DONE && text(schema, inside) == RNCV_DONE && rncv_events_end(schema, 3) == RNCV_DONE);
    CHECK(is_invalid_since(schema, kind == RNCV_REASON_NONE ? 0 : 3));
    CHECK(ends_by(schema, kind));
    check_in_place(schema, in_place);
}

static void ends(rncv_schema *schema) {
    static const char integer[] = "text\ndatatype http://www.w3.org/2001/XMLSchema-datatypes integer\n";
    begin(schema);
    CHECK(ends_by(schema, RNCV_REASON_NONE) && start(schema, 2, "sizes") == RNCV_DONE && ends_by(schema, RNCV_REASON_INCOMPLETE));
    check_end(schema, "sizes", "", RNCV_REASON_INCOMPLETE, "element {}size\n");
    check_end(schema, "sizes", " \n", RNCV_REASON_INCOMPLETE, "element {}size\n");
    check_end(schema, "sizes", "x", RNCV_REASON_TEXT, "element {}size\n");
    check_end(schema, "size", "", RNCV_REASON_INCOMPLETE, integer);
    check_end(schema, "size", " ", RNCV_REASON_INCOMPLETE, integer);
    check_end(schema, "size", "x", RNCV_REASON_TEXT_VALUE, integer);
    check_end(schema, "size", "1", RNCV_REASON_NONE, "element {}note\nelement {}sizes\ntext\n");
}

static int fails_by(rncv_schema *schema, int32_t kind, uint64_t attribute) {
    rncv_reason reason = {99, 99};
    CHECK(rncv_fault_reason(schema, &reason) == RNCV_DONE);
    return is_reason(reason, kind, attribute);
}

/* Starts a figure with these attributes behind this text in the root: it is known why nothing can follow, also behind later calls. */
static void check_fault(rncv_schema *schema, const char *before, const char *const *words, int32_t kind, uint64_t attribute) {
    rncv_attribute attributes[4];
    size_t count = make_attributes(attributes, words);
    begin(schema);
    CHECK(rncv_want_reasons(schema) == RNCV_DONE);
    CHECK(fails_by(schema, RNCV_REASON_NONE, 0) && text(schema, before) == RNCV_DONE && fails_by(schema, RNCV_REASON_NONE, 0));
    CHECK(rncv_events_start(schema, 2, NULL, 0, (const uint8_t *)"figure", 6, count == 0 ? NULL : attributes, count) == RNCV_DONE);
    CHECK(is_invalid_since(schema, 2) && fails_by(schema, kind, attribute));
    CHECK(rncv_events_end(schema, 3) == RNCV_DONE && start(schema, 2, "other") == RNCV_DONE && fails_by(schema, kind, attribute));
}

static void faults(rncv_schema *schema) {
    check_fault(schema, "", NULL, RNCV_REASON_MISSING, 0);
    check_fault(schema, " ", (const char *[]){"src", "a", "id", "x", NULL}, RNCV_REASON_VALUE, 1);
    check_fault(schema, "", (const char *[]){"id", "1", "src", "a", "of", "", NULL}, RNCV_REASON_ATTRIBUTE, 2);
    check_fault(schema, "some text", (const char *[]){"id", "1", "src", "a", NULL}, RNCV_REASON_TEXT, 0);
    check_fault(schema, "some text", NULL, RNCV_REASON_ELEMENT, 0);
    check_end(schema, "size", "x", RNCV_REASON_TEXT_VALUE, "text\ndatatype http://www.w3.org/2001/XMLSchema-datatypes integer\n");
    CHECK(fails_by(schema, RNCV_REASON_TEXT_VALUE, 0) && rncv_events_end(schema, 4) == RNCV_DONE && fails_by(schema, RNCV_REASON_TEXT_VALUE, 0));
    check_end(schema, "sizes", "", RNCV_REASON_INCOMPLETE, "element {}size\n");
    CHECK(fails_by(schema, RNCV_REASON_INCOMPLETE, 0));
    /* a start is not kept for who asks too late */
    begin(schema);
    CHECK(start(schema, 2, "figure") == RNCV_DONE && is_invalid_since(schema, 2) && fails_by(schema, RNCV_REASON_NONE, 0));
    CHECK(rncv_want_reasons(schema) == RNCV_DONE && is_invalid_since(schema, 2) && fails_by(schema, RNCV_REASON_NONE, 0));
    /* asking lasts as long as the document */
    check_fault(schema, "", NULL, RNCV_REASON_MISSING, 0);
    begin(schema);
    CHECK(start(schema, 2, "figure") == RNCV_DONE && fails_by(schema, RNCV_REASON_NONE, 0));
}

/* The same in PYX, where an event is known once the next line begins. */
static void faults_in_pyx(rncv_schema *schema) {
    rncv_verdict verdict = {7, 7, 7};
    CHECK(rncv_document_begin(schema) == RNCV_DONE && feed(schema, "(book\n(figure\n)figure\n") == RNCV_DONE);
    CHECK(fails_by(schema, RNCV_REASON_NONE, 0) && rncv_want_reasons(schema) == RNCV_DONE && fails_by(schema, RNCV_REASON_NONE, 0));
    CHECK(rncv_document_begin(schema) == RNCV_DONE && rncv_want_reasons(schema) == RNCV_DONE && fails_by(schema, RNCV_REASON_NONE, 0));
    CHECK(feed(schema, "(book\n(figure\nAid x\n") == RNCV_DONE && fails_by(schema, RNCV_REASON_NONE, 0));
    for (int turn = 0; turn < 2; turn++) {
        CHECK(feed(schema, ")figure\n") == RNCV_DONE && fails_by(schema, RNCV_REASON_VALUE, 0));
        CHECK(feed(schema, "(figure\n") == RNCV_DONE);
    }
    CHECK(feed(schema, ")figure\n)book\n") == RNCV_DONE && fails_by(schema, RNCV_REASON_VALUE, 0));
    CHECK(rncv_document_end(schema, &verdict) == RNCV_DONE && verdict.kind == RNCV_INVALID && verdict.line == 4);
}

/* A text is held where the schema tests it, up to the next start or end. */
static void holds(rncv_schema *schema) {
    CHECK(rncv_events_begin(schema) == RNCV_DONE && held_of(schema) == 0);
    CHECK(start(schema, 1, "book") == RNCV_DONE && text(schema, "some text") == RNCV_DONE && held_of(schema) == 0);
    CHECK(start(schema, 2, "note") == RNCV_DONE && start(schema, 3, "size") == RNCV_DONE && held_of(schema) == 0);
    CHECK(text(schema, "12") == RNCV_DONE && held_of(schema) == 2);
    CHECK(text(schema, "") == RNCV_DONE && text(schema, "345") == RNCV_DONE && held_of(schema) == 5);
    CHECK(rncv_events_end(schema, 4) == RNCV_DONE && held_of(schema) == 0 && is_invalid_since(schema, 0));
}

/* A text counts once a start or an end has come behind it. */
static void texts_before_tags(rncv_schema *schema) {
    static const char integer[] = "text\ndatatype http://www.w3.org/2001/XMLSchema-datatypes integer\n";
    begin(schema);
    CHECK(start(schema, 2, "size") == RNCV_DONE && text(schema, "1") == RNCV_DONE && ends_by(schema, RNCV_REASON_INCOMPLETE));
    check_in_place(schema, integer);
    CHECK(rncv_events_end(schema, 3) == RNCV_DONE && is_invalid_since(schema, 0) && ends_by(schema, RNCV_REASON_NONE));
    CHECK(text(schema, "some text") == RNCV_DONE && is_reason(reason_of(schema, "note", NULL), RNCV_REASON_NONE, 0));
}

/* No text is written for what is not UTF-8. */
static void no_options(rncv_schema *schema, const rncv_attribute *bad) {
    static const uint8_t figure[] = "figure";
    size_t length = 99;
    CHECK(rncv_events_tag_options(schema, bad->value, 1, figure, 6, NULL, 0, NULL, 0, figure, 6, NULL, 0, &length) == RNCV_MALFORMED);
    CHECK(rncv_events_tag_options(schema, NULL, 0, bad->value, 1, NULL, 0, NULL, 0, figure, 6, NULL, 0, &length) == RNCV_MALFORMED);
    CHECK(rncv_events_tag_options(schema, NULL, 0, figure, 6, bad, 1, NULL, 0, figure, 6, NULL, 0, &length) == RNCV_MALFORMED);
    CHECK(rncv_events_tag_options(schema, NULL, 0, figure, 6, NULL, 0, bad->value, 1, figure, 6, NULL, 0, &length) == RNCV_MALFORMED);
    CHECK(rncv_events_tag_options(schema, NULL, 0, figure, 6, NULL, 0, NULL, 0, bad->value, 1, NULL, 0, &length) == RNCV_MALFORMED && length == 99);
}

static void names_without_a_document(rncv_schema *schema) {
    static const uint8_t bad[] = {0xFF};
    rncv_attribute attribute = {(const uint8_t *)"", 0, (const uint8_t *)"id", 2, bad, 1};
    rncv_reason reason = {99, 99};
    begin(schema);
    CHECK(rncv_events_start_reason(schema, bad, 1, bad, 0, NULL, 0, &reason) == RNCV_MALFORMED);
    CHECK(rncv_events_start_reason(schema, NULL, 0, bad, 1, NULL, 0, &reason) == RNCV_MALFORMED);
    CHECK(rncv_events_start_reason(schema, NULL, 0, (const uint8_t *)"figure", 6, &attribute, 1, &reason) == RNCV_MALFORMED);
    CHECK(is_reason(reason, 99, 99));
    no_options(schema, &attribute);
    /* no such start can be, and the document goes on */
    CHECK(is_reason(reason_of(schema, "a b", NULL), RNCV_REASON_ELEMENT, 0) && is_reason(reason_of(schema, "", NULL), RNCV_REASON_ELEMENT, 0));
    CHECK(rncv_events_end(schema, 2) == RNCV_DONE && is_invalid_since(schema, 0));
}

int main(void) {
    rncv_schema schema = RNCV_NOTHING;
    CHECK(compile_with(FIGURES, RNCV_DATATYPES_XML_SCHEMA, &schema) == RNCV_DONE);
    names_and_attributes(&schema);
    after_a_fault(&schema);
    tags(&schema);
    tags_with_namespaces();
    texts_and_starts(&schema);
    ends(&schema);
    faults(&schema);
    faults_in_pyx(&schema);
    holds(&schema);
    texts_before_tags(&schema);
    names_without_a_document(&schema);
    rncv_schema_free(&schema);
    return outcome("reasons");
}
