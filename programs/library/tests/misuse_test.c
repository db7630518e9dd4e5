/* Calls in the wrong order, on empty handles and with wrong arguments: each returns RNCV_MISUSE and changes nothing. */
#include "testing.h"

/* The calls that tell of a document of events, where there is none. */
static void no_reasons(rncv_schema *schema) {
    rncv_reason reason = {99, 99};
    size_t length = 99;
    uint8_t buffer[1] = {'.'};
    CHECK(rncv_events_start_reason(schema, NULL, 0, (const uint8_t *)"a", 1, NULL, 0, &reason) == RNCV_MISUSE);
    CHECK(rncv_events_start_reason(schema, NULL, 0, (const uint8_t *)"\xFF", 1, NULL, 0, &reason) == RNCV_MISUSE);
    CHECK(rncv_events_tag_options(schema, NULL, 0, (const uint8_t *)"a", 1, NULL, 0, NULL, 0, (const uint8_t *)"\xFF", 1, buffer, sizeof buffer, &length) ==
          RNCV_MISUSE);
    CHECK(rncv_events_end_reason(schema, &reason) == RNCV_MISUSE && reason.kind == 99 && reason.attribute == 99);
    CHECK(rncv_events_held(schema, &length) == RNCV_MISUSE && length == 99);
    CHECK(rncv_expected_in_place(schema, buffer, sizeof buffer, &length) == RNCV_MISUSE && length == 99 && buffer[0] == '.');
}

/* Why no continuation is valid is told of both kinds of documents. */
static void no_fault_reason(rncv_schema *schema) {
    rncv_reason reason = {99, 99};
    CHECK(rncv_want_reasons(schema) == RNCV_MISUSE);
    CHECK(rncv_fault_reason(schema, &reason) == RNCV_MISUSE && reason.kind == 99 && reason.attribute == 99);
}

/* Each call that needs a schema with no document, or any schema, on a handle that holds nothing. */
static void on_nothing(rncv_schema *schema) {
    rncv_schema other = RNCV_NOTHING;
    rncv_verdict verdict = {7, 7, 7};
    uint64_t line = 99;
    size_t length = 99;
    uint8_t buffer[4] = {'.', '.', '.', '.'};

    CHECK(rncv_schema_share(schema, &other) == RNCV_MISUSE && other.hidden == NULL);
    CHECK(rncv_document_begin(schema) == RNCV_MISUSE);
    CHECK(feed(schema, "(a\n") == RNCV_MISUSE);
    CHECK(rncv_document_feed(schema, NULL, 0) == RNCV_MISUSE);
    CHECK(rncv_document_invalid_since(schema, &line) == RNCV_MISUSE && line == 99);
    CHECK(rncv_document_end(schema, &verdict) == RNCV_MISUSE);
    CHECK(verdict.kind == 7 && verdict.clause == 7 && verdict.line == 7);
    CHECK(rncv_simple(schema, buffer, sizeof buffer, &length) == RNCV_MISUSE && length == 99);
    CHECK(rncv_expected(schema, buffer, sizeof buffer, &length) == RNCV_MISUSE && length == 99);
    CHECK(rncv_expected_tag(schema, NULL, 0, (const uint8_t *)"a", 1, buffer, sizeof buffer, &length) == RNCV_MISUSE && length == 99);
    no_reasons(schema);
    no_fault_reason(schema);
    CHECK(memcmp(buffer, "....", 4) == 0);
    CHECK(schema->hidden == NULL);
}

static void on_a_schema(void) {
    rncv_schema schema = RNCV_NOTHING;
    rncv_verdict verdict = {7, 7, 7};
    uint64_t line = 99;
    size_t length = 99;

    CHECK(compile("element a { empty }", &schema) == RNCV_DONE);
    CHECK(feed(&schema, "(a\n") == RNCV_MISUSE);
    CHECK(rncv_expected(&schema, NULL, 0, &length) == RNCV_MISUSE && length == 99);
    CHECK(rncv_expected_tag(&schema, NULL, 0, (const uint8_t *)"a", 1, NULL, 0, &length) == RNCV_MISUSE && length == 99);
    no_reasons(&schema);
    no_fault_reason(&schema);
    CHECK(rncv_document_invalid_since(&schema, &line) == RNCV_MISUSE && line == 99);
    CHECK(rncv_document_end(&schema, &verdict) == RNCV_MISUSE && verdict.kind == 7);
    /* it still works */
    CHECK(rncv_document_begin(&schema) == RNCV_DONE);
    CHECK(rncv_expected_tag(&schema, NULL, 0, (const uint8_t *)"a", 1, NULL, 0, &length) == RNCV_MISUSE && length == 99); /* it comes in PYX */
    no_reasons(&schema);
    CHECK(feed(&schema, "(a\n)a\n") == RNCV_DONE);
    CHECK(rncv_document_end(&schema, &verdict) == RNCV_DONE && verdict.kind == RNCV_VALID);
    /* after the end */
    verdict.kind = 7;
    CHECK(rncv_document_end(&schema, &verdict) == RNCV_MISUSE && verdict.kind == 7);
    CHECK(feed(&schema, "(a\n") == RNCV_MISUSE);
    rncv_schema_free(&schema);
    on_nothing(&schema);
    rncv_schema_free(&schema);
    on_nothing(&schema);
}

static void on_a_document(void) {
    rncv_schema schema = RNCV_NOTHING;
    rncv_schema other = RNCV_NOTHING;
    rncv_verdict verdict;
    size_t length = 99;

    CHECK(compile("element a { empty }", &schema) == RNCV_DONE);
    CHECK(rncv_document_begin(&schema) == RNCV_DONE);
    CHECK(rncv_schema_share(&schema, &other) == RNCV_MISUSE && other.hidden == NULL);
    CHECK(rncv_simple(&schema, NULL, 0, &length) == RNCV_MISUSE && length == 99);
    CHECK(feed(&schema, "(a\n)a\n") == RNCV_DONE);
    CHECK(rncv_document_end(&schema, &verdict) == RNCV_DONE && verdict.kind == RNCV_VALID);
    /* a shared schema outlives the handle from which it was shared */
    CHECK(rncv_schema_share(&schema, &other) == RNCV_DONE);
    rncv_schema_free(&schema);
    CHECK(rncv_document_begin(&other) == RNCV_DONE);
    CHECK(feed(&other, "(a\n)a\n") == RNCV_DONE);
    CHECK(rncv_document_end(&other, &verdict) == RNCV_DONE && verdict.kind == RNCV_VALID);
    rncv_schema_free(&other);
}

static void on_files(void) {
    rncv_schema schema = RNCV_NOTHING;
    rncv_fault fault = {7, 7, 7, 7, 7};
    rncv_file named_badly[2] = {file_of("s.rnc", "element a { empty }"), file_of("\xFF", "x = empty")};
    rncv_file nameless = file_of("", "element a { empty }");
    uint8_t buffer[4] = {'.', '.', '.', '.'};
    size_t length = 99;

    CHECK(rncv_compile(NULL, 0, &schema, &fault) == RNCV_MISUSE);
    CHECK(rncv_compile(named_badly, 2, &schema, &fault) == RNCV_MISUSE);
    CHECK(rncv_compile(named_badly + 1, 1, &schema, &fault) == RNCV_MISUSE);
    CHECK(schema.hidden == NULL && fault.clause == 7 && fault.file == 7);
    CHECK(rncv_refused_name(NULL, 0, buffer, sizeof buffer, &length) == RNCV_MISUSE);
    CHECK(rncv_refused_name(named_badly, 2, buffer, sizeof buffer, &length) == RNCV_MISUSE);
    CHECK(rncv_refused_name(&nameless, 1, NULL, 0, &length) == RNCV_MISUSE);
    CHECK(length == 99 && memcmp(buffer, "....", 4) == 0);
    /* an empty name is a name */
    CHECK(rncv_compile(&nameless, 1, &schema, &fault) == RNCV_DONE);
    rncv_schema_free(&schema);
}

/* A number that is no set of datatypes is refused, whatever the files are, and nothing is changed. */
static void on_sets(void) {
    rncv_schema schema = RNCV_NOTHING;
    rncv_fault fault = {7, 7, 7, 7, 7};
    rncv_file good = file_of("s.rnc", "element a { empty }");
    rncv_file bad = file_of("s.rnc", "element a {");
    CHECK(rncv_compile_with(&good, 1, 2, &schema, &fault) == RNCV_MISUSE);
    CHECK(rncv_compile_with(&bad, 1, UINT32_MAX, &schema, &fault) == RNCV_MISUSE);
    CHECK(rncv_compile_with(NULL, 0, RNCV_DATATYPES_XML_SCHEMA, &schema, &fault) == RNCV_MISUSE);
    CHECK(rncv_datatype_place(good.bytes, good.length, 2, &fault) == RNCV_MISUSE);
    CHECK(rncv_datatype_place(NULL, 0, UINT32_MAX, &fault) == RNCV_MISUSE);
    CHECK(schema.hidden == NULL && fault.clause == 7 && fault.file == 7);
    CHECK(rncv_compile_with(&good, 1, RNCV_DATATYPES_XML_SCHEMA, &schema, &fault) == RNCV_DONE && schema.hidden != NULL);
    void *held = schema.hidden;
    CHECK(rncv_compile_with(&good, 1, 2, &schema, &fault) == RNCV_MISUSE && schema.hidden == held);
    rncv_schema_free(&schema);
}

int main(void) {
    rncv_schema schema = RNCV_NOTHING;
    on_nothing(&schema);
    on_a_schema();
    on_a_document();
    on_files();
    on_sets();
    return outcome("misuse");
}
