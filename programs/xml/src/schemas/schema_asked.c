#include "schema_asked.h"

#include "rncv.h"
#include "schema_tokens.h"

/* Asks the library about the only datatype of a schema. The text is freed. */
static bool is_taken(struct bytes *schema, uint32_t datatypes) {
    rncv_fault place;
    bool is_refused = !schema->failed && rncv_datatype_place((const uint8_t *)schema->data, schema->length, datatypes, &place) == RNCV_DONE;
    bytes_free(schema);
    return !is_refused;
}

void asked_begin(struct bytes *question, const char *type) {
    bytes_format(question, "%sxsd:%s {", question->length == 0 ? "" : "} | ", type);
}

void asked_add_param(struct bytes *question, struct span name, struct span text) {
    bytes_add(question, name.data, name.length);
    bytes_add_byte(question, '=');
    write_literal(question, text);
}

bool asked_is_taken(struct bytes *question, uint32_t datatypes) {
    bytes_add_byte(question, '}');
    return is_taken(question, datatypes);
}

/* Judges an element with this text. */
static bool is_valid(rncv_schema *schema, struct span text) {
    static const uint8_t name[] = "a";
    rncv_verdict verdict = {.kind = RNCV_BROKEN};
    return rncv_events_begin(schema) == RNCV_DONE && rncv_events_start(schema, 1, NULL, 0, name, 1, NULL, 0) == RNCV_DONE &&
           rncv_events_text(schema, (const uint8_t *)text.data, text.length) == RNCV_DONE && rncv_events_end(schema, 2) == RNCV_DONE &&
           rncv_events_finish(schema, &verdict) == RNCV_DONE && verdict.kind == RNCV_VALID;
}

bool asked_takes(struct bytes *question, struct span text, uint32_t datatypes) {
    struct bytes written = NO_BYTES;
    rncv_schema schema = RNCV_NOTHING;
    rncv_fault fault;
    bytes_add_text(&written, "element a {");
    bytes_add(&written, question->data, question->length);
    bytes_add_text(&written, "}}");
    rncv_file file = {(const uint8_t *)"", 0, (const uint8_t *)written.data, written.length};
    bool is_whole = !question->failed && !written.failed;
    bool is_taken = is_whole && rncv_compile_with(&file, 1, datatypes, &schema, &fault) == RNCV_DONE && is_valid(&schema, text);
    rncv_schema_free(&schema);
    bytes_free(&written);
    bytes_free(question);
    return is_taken;
}

bool asked_allows(const char *type, struct span value, uint32_t datatypes) {
    struct bytes schema = NO_BYTES;
    bytes_format(&schema, "xsd:%s ", type);
    write_literal(&schema, value);
    return is_taken(&schema, datatypes);
}
