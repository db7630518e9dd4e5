/* Where a schema file has its first datatype that breaks S12. The rows of crates/schema_cases/data/datatypes.txt are compared by rows_test.py. */
#include "testing.h"

#define NO_PLACE {7, 7, 7, 7, 7}

static int32_t ask(const char *text, uint32_t datatypes, rncv_fault *place) {
    return rncv_datatype_place((const uint8_t *)text, strlen(text), datatypes, place);
}

static int is_untouched(const rncv_fault *place) {
    return place->clause == 7 && place->file == 7 && place->offset == 7 && place->line == 7 && place->column == 7;
}

/* The first such datatype of a file is at this place. */
static void check_place(const char *text, uint32_t datatypes, int64_t offset, int64_t line, int64_t column) {
    rncv_fault place = NO_PLACE;
    CHECK(ask(text, datatypes, &place) == RNCV_DONE);
    CHECK(place.clause == 12 && place.file == 0 && place.offset == offset && place.line == line && place.column == column);
}

/* A file has no such datatype, with this set. */
static void check_none(const char *text, uint32_t datatypes) {
    rncv_fault place = NO_PLACE;
    CHECK(ask(text, datatypes, &place) == RNCV_REFUSED && is_untouched(&place));
}

static void check_none_at_all(const char *text) {
    check_none(text, RNCV_DATATYPES_PROFILE);
    check_none(text, RNCV_DATATYPES_XML_SCHEMA);
}

static void places(void) {
    check_place("element a { xsd:nonsense }", RNCV_DATATYPES_PROFILE, 12, 1, 13);
    check_place("element a { xsd:nonsense }", RNCV_DATATYPES_XML_SCHEMA, 12, 1, 13);
    /* the set decides */
    check_place("element a { xsd:byte | xsd:none }", RNCV_DATATYPES_PROFILE, 12, 1, 13);
    check_place("element a { xsd:byte | xsd:none }", RNCV_DATATYPES_XML_SCHEMA, 23, 1, 24);
    check_place("element a { xsd:byte }", RNCV_DATATYPES_PROFILE, 12, 1, 13);
    check_none("element a { xsd:byte }", RNCV_DATATYPES_XML_SCHEMA);
    /* a value, and a parameter */
    check_place("element a { \"x\",\r\n  xsd:integer \"y\" }", RNCV_DATATYPES_PROFILE, 20, 2, 3);
    check_place("element \xC3\xA9 { xsd:byte { maxInclusive = \"128\" } }", RNCV_DATATYPES_XML_SCHEMA, 13, 1, 13);
    check_place("element a { string { length = \"1\" } }", RNCV_DATATYPES_XML_SCHEMA, 12, 1, 13);
    /* an escape is as long as it is written */
    check_place("\\x{61} = xsd:x", RNCV_DATATYPES_PROFILE, 9, 1, 10);
    /* all components count */
    check_place("start = element a { empty }\nb = xsd:none", RNCV_DATATYPES_PROFILE, 32, 2, 5);
    check_place("include \"b.rnc\" { a = xsd:x }", RNCV_DATATYPES_PROFILE, 22, 1, 23);
}

static void has_none(void) {
    check_none_at_all("");
    check_none_at_all("element a { xsd:integer \"1\", string, token \"x\", \"y\" }");
    check_none_at_all("include \"b.rnc\"");
    /* a file that breaks a clause before */
    check_none_at_all("element a:b { xsd:none }");
    check_none_at_all("element a { xsd:none");
    check_none_at_all("element a { xsd:none } %");
    check_none_at_all("element a { xsd:none } \xFF");
    check_none_at_all("element a { xsd:none } \\x{0}");
}

/* A number that is no set is refused, whatever the file is. */
static void refuses_other_sets(void) {
    static const uint32_t numbers[] = {2, 256, UINT32_MAX};
    static const char *const files[] = {"", "element a { xsd:none }", "element a { text }", "element a {"};
    for (size_t at = 0; at < 12; at++) {
        rncv_fault place = NO_PLACE;
        CHECK(ask(files[at % 4], numbers[at / 4], &place) == RNCV_MISUSE && is_untouched(&place));
    }
}

/* A schema of one file that rncv_compile_with refuses for S12 has a place. */
static void has_one_if_the_schema_is_refused(void) {
    static const char *const files[] = {
        "element a { xsd:date \"2001-02-29\" }", "element a { attribute b { xsd:integer \"x\" } }", "start = element a { xsd:boolean { length = \"1\" } }"};
    for (size_t at = 0; at < sizeof files / sizeof *files; at++) {
        rncv_file file = file_of("s.rnc", files[at]);
        rncv_schema schema = RNCV_NOTHING;
        rncv_fault fault = NO_PLACE;
        rncv_fault place = NO_PLACE;
        CHECK(rncv_compile_with(&file, 1, RNCV_DATATYPES_XML_SCHEMA, &schema, &fault) == RNCV_REFUSED && fault.clause == 12 && fault.line == -1);
        CHECK(ask(files[at], RNCV_DATATYPES_XML_SCHEMA, &place) == RNCV_DONE && place.clause == 12 && place.line == 1);
    }
}

/* A file may have no bytes at all, and more than rncv_compile takes. */
static void takes_any_size(void) {
    const char *one = "element a { xsd:integer } |\n";
    size_t count = is_quick() ? 2000 : 60000;
    size_t length = count * strlen(one);
    char *text = malloc(length + 32);
    rncv_fault place = NO_PLACE;
    CHECK(rncv_datatype_place(NULL, 0, RNCV_DATATYPES_PROFILE, &place) == RNCV_REFUSED && is_untouched(&place));
    if (text == NULL) {
        CHECK(!"memory for the test");
        return;
    }
    for (size_t at = 0; at < count; at++) {
        strcpy(text + at * strlen(one), one);
    }
    strcpy(text + length, "element b { xsd:none }");
    check_place(text, RNCV_DATATYPES_PROFILE, (int64_t)length + 12, (int64_t)count + 1, 13);
    free(text);
}

int main(void) {
    places();
    has_none();
    refuses_other_sets();
    has_one_if_the_schema_is_refused();
    takes_any_size();
    return outcome("datatype_place");
}
