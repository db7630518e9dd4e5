/* Documents that come as events. */
#include "testing.h"

#define BOOK "start = element book { attribute id { text }, title+, part* }\ntitle = element title { text }\npart = element part { text }\n"

/* The attribute of this namespace, name and value. */
static rncv_attribute attribute_of(const char *uri, const char *local, const char *value) {
    rncv_attribute attribute = {(const uint8_t *)uri, strlen(uri), (const uint8_t *)local, strlen(local), (const uint8_t *)value, strlen(value)};
    return attribute;
}

static int32_t start_in(rncv_schema *schema, uint64_t place, const char *uri, const char *local, const rncv_attribute *attributes, size_t count) {
    return rncv_events_start(schema, place, (const uint8_t *)uri, strlen(uri), (const uint8_t *)local, strlen(local), attributes, count);
}

static int32_t start(rncv_schema *schema, uint64_t place, const char *local) {
    return rncv_events_start(schema, place, NULL, 0, (const uint8_t *)local, strlen(local), NULL, 0);
}

static int32_t text(rncv_schema *schema, const char *bytes) {
    return rncv_events_text(schema, (const uint8_t *)bytes, strlen(bytes));
}

/* The document ends with this verdict, and no other document is in progress then. */
static void check_finish(rncv_schema *schema, int32_t kind, uint64_t place) {
    rncv_verdict verdict = {7, 7, 7};
    CHECK(rncv_events_finish(schema, &verdict) == RNCV_DONE);
    CHECK(verdict.kind == kind && verdict.clause == 0 && verdict.line == place);
    CHECK(rncv_events_finish(schema, &verdict) == RNCV_MISUSE && rncv_events_end(schema, 1) == RNCV_MISUSE);
}

/* Begins a document whose root has begun. */
static void begin_book(rncv_schema *schema) {
    rncv_attribute id = attribute_of("", "id", "1");
    CHECK(rncv_events_begin(schema) == RNCV_DONE);
    CHECK(start_in(schema, 10, "", "book", &id, 1) == RNCV_DONE);
}

static void judges(rncv_schema *schema) {
    uint64_t place = 99;
    for (int turn = 0; turn < 3; turn++) {
        begin_book(schema);
        CHECK(text(schema, " \n") == RNCV_DONE);
        CHECK(start(schema, 20, "title") == RNCV_DONE);
        CHECK(text(schema, "RELAX") == RNCV_DONE && text(schema, "") == RNCV_DONE && text(schema, " NG \xE2\x82\xAC") == RNCV_DONE);
        CHECK(rncv_events_text(schema, NULL, 0) == RNCV_DONE);
        CHECK(rncv_events_end(schema, 30) == RNCV_DONE && rncv_events_end(schema, 40) == RNCV_DONE);
        CHECK(rncv_events_invalid_since(schema, &place) == RNCV_DONE && place == 0);
        CHECK(text(schema, "\n\t ") == RNCV_DONE);
        check_finish(schema, RNCV_VALID, 0);

        begin_book(schema);
        CHECK(start(schema, 20, "author") == RNCV_DONE);
        CHECK(rncv_events_invalid_since(schema, &place) == RNCV_DONE && place == 20);
        CHECK(rncv_events_end(schema, 30) == RNCV_DONE && rncv_events_end(schema, 40) == RNCV_DONE);
        CHECK(rncv_events_invalid_since(schema, &place) == RNCV_DONE && place == 20);
        check_finish(schema, RNCV_INVALID, 20);

        /* no title */
        begin_book(schema);
        CHECK(rncv_events_end(schema, UINT64_MAX) == RNCV_DONE);
        check_finish(schema, RNCV_INVALID, UINT64_MAX);

        /* a text has the place of what is behind it */
        begin_book(schema);
        CHECK(text(schema, "text") == RNCV_DONE && start(schema, 0, "title") == RNCV_DONE);
        CHECK(rncv_events_end(schema, 30) == RNCV_DONE && rncv_events_end(schema, 40) == RNCV_DONE);
        check_finish(schema, RNCV_INVALID, 0);
    }
}

/* What may come next is this text, also where only its length is asked for. */
static void check_expected(rncv_schema *schema, const char *wanted) {
    uint8_t buffer[512];
    size_t length = 99;
    size_t size = strlen(wanted);
    memset(buffer, '.', sizeof buffer);
    CHECK(rncv_expected(schema, buffer, sizeof buffer, &length) == RNCV_DONE && length == size);
    CHECK(memcmp(buffer, wanted, size) == 0 && buffer[size] == '.');
    if (size > 0) {
        memset(buffer, '.', sizeof buffer);
        length = 99;
        CHECK(rncv_expected(schema, NULL, 0, &length) == RNCV_SPACE && length == size);
        CHECK(rncv_expected(schema, buffer, size - 1, &length) == RNCV_SPACE && length == size && buffer[0] == '.');
        CHECK(rncv_expected(schema, buffer, size, &length) == RNCV_DONE && memcmp(buffer, wanted, size) == 0 && buffer[size] == '.');
    }
}

/* What the tag of an element of this name may have is this text. */
static void check_tag(rncv_schema *schema, const char *name, const char *wanted) {
    uint8_t buffer[512];
    size_t length = 99;
    size_t size = strlen(wanted);
    memset(buffer, '.', sizeof buffer);
    CHECK(rncv_expected_tag(schema, NULL, 0, (const uint8_t *)name, strlen(name), buffer, sizeof buffer, &length) == RNCV_DONE && length == size);
    CHECK(memcmp(buffer, wanted, size) == 0 && buffer[size] == '.');
    if (size > 0) {
        length = 99;
        buffer[0] = '.';
        CHECK(rncv_expected_tag(schema, NULL, 0, (const uint8_t *)name, strlen(name), buffer, size - 1, &length) == RNCV_SPACE && length == size);
        CHECK(buffer[0] == '.');
    }
}

static void expects_tags(void) {
    rncv_schema schema = RNCV_NOTHING;
    size_t length = 99;
    CHECK(compile("element a { attribute id { text }, attribute x|y { text }?, (element b { attribute * - z { text }* } | element b { attribute c { empty } })* }",
                  &schema) == RNCV_DONE);
    CHECK(rncv_events_begin(&schema) == RNCV_DONE);
    check_tag(&schema, "a", "attribute {}x\nattribute {}y\nattribute {}id\nrequired {}id\n");
    check_tag(&schema, "b", "");
    CHECK(rncv_expected_tag(&schema, NULL, 0, (const uint8_t *)"\x80", 1, NULL, 0, &length) == RNCV_MALFORMED && length == 99);
    /* what could have been in place of the start that makes the document invalid */
    CHECK(start(&schema, 1, "a") == RNCV_DONE);
    check_tag(&schema, "a", "attribute {}x\nattribute {}y\nattribute {}id\nrequired {}id\n");
    CHECK(rncv_events_end(&schema, 2) == RNCV_DONE);
    check_finish(&schema, RNCV_INVALID, 1);
    CHECK(rncv_events_begin(&schema) == RNCV_DONE);
    rncv_attribute id = {NULL, 0, (const uint8_t *)"id", 2, (const uint8_t *)"", 0};
    CHECK(rncv_events_start(&schema, 1, NULL, 0, (const uint8_t *)"a", 1, &id, 1) == RNCV_DONE);
    /* the second element needs an attribute, the first one does not */
    check_tag(&schema, "b", "attribute {}c\nattribute * except ( {}z )\n");
    rncv_schema_free(&schema);
}

static void expects(rncv_schema *schema) {
    rncv_verdict verdict = {7, 7, 7};
    CHECK(rncv_events_begin(schema) == RNCV_DONE);
    check_expected(schema, "element {}book\n");
    begin_book(schema);
    check_expected(schema, "element {}title\n");
    CHECK(start(schema, 20, "title") == RNCV_DONE);
    check_expected(schema, "text\n");
    CHECK(rncv_events_end(schema, 30) == RNCV_DONE);
    check_expected(schema, "element {}title\nelement {}part\n");
    /* what could have come before the start that makes the document invalid */
    CHECK(start(schema, 40, "author") == RNCV_DONE);
    check_expected(schema, "element {}title\nelement {}part\n");
    CHECK(rncv_events_end(schema, 50) == RNCV_DONE && rncv_events_end(schema, 60) == RNCV_DONE);
    check_expected(schema, "element {}title\nelement {}part\n");
    check_finish(schema, RNCV_INVALID, 40);
    /* the same for PYX */
    CHECK(rncv_document_begin(schema) == RNCV_DONE);
    check_expected(schema, "element {}book\n");
    CHECK(feed(schema, "(book\nAid 1\n(part\n)part\n") == RNCV_DONE);
    check_expected(schema, "element {}title\n");
    CHECK(rncv_document_end(schema, &verdict) == RNCV_DONE && verdict.kind == RNCV_BROKEN);
}

/* All that is written of names, values and datatypes. */
static void expects_all(void) {
    rncv_schema schema = RNCV_NOTHING;
    CHECK(compile("namespace p = \"a }\" element r { element (* - ((p:* - p:x) | b)) { empty } | element (p:c | d | (* - (p:* | d))) { empty } }", &schema)
          == RNCV_DONE);
    CHECK(rncv_events_begin(&schema) == RNCV_DONE && start(&schema, 1, "r") == RNCV_DONE);
    check_expected(&schema, "element {a\\s}}c\nelement {}d\nelement * except ( {a\\s}}* {}d )\n"
                            "element * except ( {a\\s}}* except ( {a\\s}}x ) {}b )\n");
    CHECK(compile("element r { element a { xsd:integer | \"x \\x{A}\\x{9}\\x{5C}\" | xsd:string { maxLength = \"1\" } } | list { \"y\" } }", &schema) == RNCV_DONE);
    CHECK(rncv_events_begin(&schema) == RNCV_DONE && start(&schema, 1, "r") == RNCV_DONE);
    check_expected(&schema, "element {}a\ntext\n");
    CHECK(start(&schema, 2, "a") == RNCV_DONE);
    check_expected(&schema, "text\nvalue  token x\\s\\n\\t\\\\\n"
                            "datatype http://www.w3.org/2001/XMLSchema-datatypes string maxLength 1\n"
                            "datatype http://www.w3.org/2001/XMLSchema-datatypes integer\n");
    rncv_schema_free(&schema);
}

/* Datatypes have their parameters in the order of the schema, and not their excepts. A value may be empty. */
static void expects_parameters(void) {
    static const char written[] = "element r { xsd:token { pattern = \"a \\x{9}\\x{5C}s\" minLength = \"1\" pattern = \"\" } - \"x\" }";
    rncv_schema schema = RNCV_NOTHING;
    CHECK(compile_with(written, RNCV_DATATYPES_XML_SCHEMA, &schema) == RNCV_DONE);
    CHECK(rncv_events_begin(&schema) == RNCV_DONE && start(&schema, 1, "r") == RNCV_DONE);
    check_expected(&schema, "text\ndatatype http://www.w3.org/2001/XMLSchema-datatypes token pattern a\\s\\t\\\\s minLength 1 pattern \n");
    rncv_schema_free(&schema);
}

/* The namespaces of elements and attributes, and many attributes. */
static void names(void) {
    static char many[40][16];
    rncv_attribute attributes[40];
    rncv_schema schema = RNCV_NOTHING;
    CHECK(compile("namespace p = \"urn:p\" element p:a { attribute p:x { \"1\" }, attribute x { \"2\" } }", &schema) == RNCV_DONE);
    for (int turn = 0; turn < 2; turn++) {
        rncv_attribute pair[2] = {attribute_of("", "x", "2"), attribute_of("urn:p", "x", turn == 0 ? "1" : "2")};
        CHECK(rncv_events_begin(&schema) == RNCV_DONE && start_in(&schema, 1, "urn:p", "a", pair, 2) == RNCV_DONE && rncv_events_end(&schema, 2) == RNCV_DONE);
        check_finish(&schema, turn == 0 ? RNCV_VALID : RNCV_INVALID, turn == 0 ? 0 : 1);
        CHECK(rncv_events_begin(&schema) == RNCV_DONE && start_in(&schema, 1, "", "a", pair, 2) == RNCV_DONE && rncv_events_end(&schema, 2) == RNCV_DONE);
        check_finish(&schema, RNCV_INVALID, 1);
    }
    CHECK(compile("element * { attribute * { text }* }", &schema) == RNCV_DONE);
    for (int i = 0; i < 40; i++) {
        snprintf(many[i], sizeof many[i], "a%d", i);
        attributes[i] = attribute_of("", many[i], "");
    }
    CHECK(rncv_events_begin(&schema) == RNCV_DONE && start_in(&schema, 1, "urn:q", "b", attributes, 40) == RNCV_DONE && rncv_events_end(&schema, 2) == RNCV_DONE);
    check_finish(&schema, RNCV_VALID, 0);
    attributes[39] = attribute_of("", "a7", "other");
    CHECK(rncv_events_begin(&schema) == RNCV_DONE && start_in(&schema, 1, "urn:q", "b", attributes, 40) == RNCV_MALFORMED);
    check_finish(&schema, RNCV_BROKEN, 0);
    rncv_schema_free(&schema);
}

/* After a call that is refused, each later one is, and the document is broken. */
static void check_refused(rncv_schema *schema, int32_t status) {
    uint64_t place = 99;
    rncv_attribute id = attribute_of("", "id", "1");
    rncv_attribute cut = attribute_of("", "\xC3", "1");
    CHECK(status == RNCV_MALFORMED);
    CHECK(start_in(schema, 10, "", "book", &id, 1) == RNCV_MALFORMED && start_in(schema, 10, "", "book", &cut, 1) == RNCV_MALFORMED);
    CHECK(text(schema, "") == RNCV_MALFORMED && text(schema, "\xFF") == RNCV_MALFORMED && rncv_events_end(schema, 20) == RNCV_MALFORMED);
    CHECK(rncv_events_invalid_since(schema, &place) == RNCV_DONE);
    check_finish(schema, RNCV_BROKEN, 0);
}

static void refuses(rncv_schema *schema) {
    static const char *const no_names[] = {"", "1", "a:b", "a b", "\xC3", "\xFF", "\xED\xA0\x80", "a\x01"};
    static const char *const no_texts[] = {"\xC3", "\xFF", "a\x80", "\xED\xA0\x80", "\x01", "\xEF\xBF\xBF", "\xF4\x90\x80\x80"};
    rncv_attribute twice[2] = {attribute_of("", "id", "1"), attribute_of("", "id", "2")};

    for (size_t i = 0; i < sizeof no_names / sizeof *no_names; i++) {
        rncv_attribute named_badly[2] = {attribute_of("", "id", "1"), attribute_of("", no_names[i], "1")};
        CHECK(rncv_events_begin(schema) == RNCV_DONE);
        check_refused(schema, start(schema, 10, no_names[i]));
        CHECK(rncv_events_begin(schema) == RNCV_DONE);
        check_refused(schema, start_in(schema, 10, "", "book", named_badly, 2));
    }
    for (size_t i = 0; i < sizeof no_texts / sizeof *no_texts; i++) {
        rncv_attribute of_no_namespace = attribute_of(no_texts[i], "id", "1");
        rncv_attribute of_no_value = attribute_of("", "id", no_texts[i]);
        CHECK(rncv_events_begin(schema) == RNCV_DONE);
        check_refused(schema, start_in(schema, 10, no_texts[i], "book", NULL, 0));
        CHECK(rncv_events_begin(schema) == RNCV_DONE);
        check_refused(schema, start_in(schema, 10, "", "book", &of_no_namespace, 1));
        CHECK(rncv_events_begin(schema) == RNCV_DONE);
        check_refused(schema, start_in(schema, 10, "", "book", &of_no_value, 1));
        begin_book(schema);
        check_refused(schema, text(schema, no_texts[i]));
        CHECK(rncv_events_begin(schema) == RNCV_DONE);
        check_refused(schema, text(schema, no_texts[i]));
    }
    CHECK(rncv_events_begin(schema) == RNCV_DONE);
    check_refused(schema, start_in(schema, 10, "", "book", twice, 2));
    /* NULL is an empty text, and no name */
    CHECK(rncv_events_begin(schema) == RNCV_DONE);
    check_refused(schema, rncv_events_start(schema, 10, NULL, 0, NULL, 0, NULL, 0));
    /* an end too many, with and without a root */
    CHECK(rncv_events_begin(schema) == RNCV_DONE);
    check_refused(schema, rncv_events_end(schema, 10));
    begin_book(schema);
    CHECK(rncv_events_end(schema, 20) == RNCV_DONE);
    check_refused(schema, rncv_events_end(schema, 30));
    /* a text around the root, a second root */
    CHECK(rncv_events_begin(schema) == RNCV_DONE && text(schema, " ") == RNCV_DONE);
    check_refused(schema, text(schema, " x"));
    begin_book(schema);
    CHECK(rncv_events_end(schema, 20) == RNCV_DONE);
    check_refused(schema, text(schema, "x"));
    begin_book(schema);
    CHECK(rncv_events_end(schema, 20) == RNCV_DONE);
    check_refused(schema, start(schema, 30, "book"));
    /* no root, and one that is open */
    CHECK(rncv_events_begin(schema) == RNCV_DONE);
    check_finish(schema, RNCV_BROKEN, 0);
    begin_book(schema);
    check_finish(schema, RNCV_BROKEN, 0);
    /* also where the document was invalid before */
    begin_book(schema);
    CHECK(start(schema, 20, "author") == RNCV_DONE && rncv_events_end(schema, 30) == RNCV_DONE);
    check_refused(schema, text(schema, "\xFF"));
}

/* Calls on a handle that holds no document of events change nothing. */
static void check_misuse(rncv_schema *schema) {
    rncv_verdict verdict = {7, 7, 7};
    uint64_t place = 99;
    CHECK(start(schema, 1, "book") == RNCV_MISUSE && start(schema, 1, "\xFF") == RNCV_MISUSE);
    CHECK(text(schema, "") == RNCV_MISUSE && text(schema, "\xFF") == RNCV_MISUSE && rncv_events_end(schema, 1) == RNCV_MISUSE);
    CHECK(rncv_events_invalid_since(schema, &place) == RNCV_MISUSE && place == 99);
    CHECK(rncv_events_finish(schema, &verdict) == RNCV_MISUSE && verdict.kind == 7 && verdict.clause == 7 && verdict.line == 7);
}

static void misuses(rncv_schema *schema) {
    rncv_schema nothing = RNCV_NOTHING;
    rncv_verdict verdict = {7, 7, 7};
    uint64_t line = 99;
    size_t length = 99;

    CHECK(rncv_events_begin(&nothing) == RNCV_MISUSE);
    check_misuse(&nothing);
    CHECK(nothing.hidden == NULL);
    check_misuse(schema);
    /* a document in PYX, which goes on */
    CHECK(rncv_document_begin(schema) == RNCV_DONE && feed(schema, "(book\nAid 1\n(title\n") == RNCV_DONE);
    check_misuse(schema);
    CHECK(feed(schema, ")title\n)book\n") == RNCV_DONE && rncv_document_end(schema, &verdict) == RNCV_DONE && verdict.kind == RNCV_VALID);
    check_misuse(schema);
    /* calls for PYX and for a schema, on a document of events, which goes on */
    verdict.kind = 7;
    begin_book(schema);
    CHECK(feed(schema, "(a\n") == RNCV_MISUSE && rncv_document_end(schema, &verdict) == RNCV_MISUSE && verdict.kind == 7);
    CHECK(rncv_document_invalid_since(schema, &line) == RNCV_MISUSE && line == 99);
    CHECK(rncv_schema_share(schema, &nothing) == RNCV_MISUSE && nothing.hidden == NULL);
    CHECK(rncv_simple(schema, NULL, 0, &length) == RNCV_MISUSE && length == 99);
    CHECK(start(schema, 20, "title") == RNCV_DONE && rncv_events_end(schema, 30) == RNCV_DONE && rncv_events_end(schema, 40) == RNCV_DONE);
    check_finish(schema, RNCV_VALID, 0);
    /* each kind of document drops the other, and a new schema drops both */
    begin_book(schema);
    CHECK(rncv_document_begin(schema) == RNCV_DONE && feed(schema, "(book\n") == RNCV_DONE);
    CHECK(rncv_events_begin(schema) == RNCV_DONE);
    check_finish(schema, RNCV_BROKEN, 0);
    begin_book(schema);
    CHECK(compile(BOOK, schema) == RNCV_DONE);
    check_misuse(schema);
    begin_book(schema);
}

/* What is passed may be freed after the call: each call gets bytes of its own, without a zero behind them. */
static void copies(rncv_schema *schema) {
    static const char *const words[] = {"book", "id", "1", "text", "title"};
    uint8_t *own[5];
    for (int i = 0; i < 5; i++) {
        own[i] = malloc(strlen(words[i]));
        CHECK(own[i] != NULL);
        memcpy(own[i], words[i], strlen(words[i]));
    }
    rncv_attribute id = {own[0], 0, own[1], 2, own[2], 1};
    CHECK(rncv_events_begin(schema) == RNCV_DONE);
    CHECK(rncv_events_start(schema, 1, own[0], 0, own[0], 4, &id, 1) == RNCV_DONE);
    CHECK(rncv_events_start(schema, 2, NULL, 0, own[4], 5, NULL, 0) == RNCV_DONE);
    CHECK(rncv_events_text(schema, own[3], 4) == RNCV_DONE);
    for (int i = 0; i < 5; i++) {
        free(own[i]);
    }
    CHECK(rncv_events_end(schema, 3) == RNCV_DONE && rncv_events_end(schema, 4) == RNCV_DONE);
    check_finish(schema, RNCV_VALID, 0);
}

/* Elements nest as deep as there is memory. */
static void nests(void) {
    uint64_t depth = is_quick() ? 2000 : 200000;
    rncv_schema schema = RNCV_NOTHING;
    CHECK(compile("start = a\na = element a { a? }", &schema) == RNCV_DONE);
    CHECK(rncv_events_begin(&schema) == RNCV_DONE);
    for (uint64_t i = 1; i <= depth; i++) {
        CHECK(start(&schema, i, "a") == RNCV_DONE);
    }
    for (uint64_t i = 1; i <= depth; i++) {
        CHECK(rncv_events_end(&schema, depth + i) == RNCV_DONE);
    }
    check_finish(&schema, RNCV_VALID, 0);
    rncv_schema_free(&schema);
}

int main(void) {
    rncv_schema schema = RNCV_NOTHING;
    CHECK(compile(BOOK, &schema) == RNCV_DONE);
    judges(&schema);
    expects(&schema);
    expects_tags();
    expects_all();
    expects_parameters();
    names();
    refuses(&schema);
    copies(&schema);
    nests();
    misuses(&schema);
    rncv_schema_free(&schema);
    return outcome("events");
}
