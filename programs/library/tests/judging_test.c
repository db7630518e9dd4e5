/* What each function returns. */
#include "testing.h"

#define BOOK "start = element book { attribute id { text }, title+, part* }\ntitle = element title { text }\ninclude \"part.rnc\"\n"
#define PART "part = element part { text }\n"
#define VALID "(book\nAid 1\n(title\n-RELAX NG\n)title\n)book\n"

static const char BOOK_SIMPLE[] = "start = e0\n"
                                  "e0 = element book { p0 }\n"
                                  "p0 = p1, p2\n"
                                  "p1 = p3, p4\n"
                                  "p2 = empty | p5\n"
                                  "p3 = attribute id { text }\n"
                                  "p4 = e1+\n"
                                  "p5 = e2+\n"
                                  "e1 = element title { text }\n"
                                  "e2 = element part { text }\n";

static void compile_book(rncv_schema *schema) {
    rncv_file files[2] = {file_of("s.rnc", BOOK), file_of("part.rnc", PART)};
    rncv_fault fault = {7, 7, 7, 7, 7};
    CHECK(rncv_compile(files, 2, schema, &fault) == RNCV_DONE);
    CHECK(fault.clause == 7 && fault.file == 7 && fault.offset == 7 && fault.line == 7 && fault.column == 7);
}

static rncv_verdict judged(rncv_schema *schema, const char *document, size_t piece) {
    rncv_verdict verdict = {7, 7, 7};
    size_t length = strlen(document);
    CHECK(rncv_document_begin(schema) == RNCV_DONE);
    for (size_t at = 0; at < length; at += piece) {
        size_t rest = length - at;
        int32_t status = rncv_document_feed(schema, (const uint8_t *)document + at, rest < piece ? rest : piece);
        CHECK(status == RNCV_DONE || status == RNCV_MALFORMED);
    }
    CHECK(rncv_document_end(schema, &verdict) == RNCV_DONE);
    return verdict;
}

static void check_verdict(rncv_schema *schema, const char *document, int32_t kind, int32_t clause, uint64_t line) {
    for (size_t piece = 1; piece <= 64; piece += 9) {
        rncv_verdict verdict = judged(schema, document, piece);
        CHECK(verdict.kind == kind && verdict.clause == clause && verdict.line == line);
    }
}

static void judges(void) {
    rncv_schema schema = RNCV_NOTHING;
    compile_book(&schema);
    check_verdict(&schema, VALID, RNCV_VALID, 0, 0);
    check_verdict(&schema, "(book\nAid 1\n(author\n-x\n)author\n)book\n", RNCV_INVALID, 0, 4);
    check_verdict(&schema, "(book\n(title\n-x\n)title\n)book\n", RNCV_INVALID, 0, 2);
    check_verdict(&schema, "(book\nAid 1\n(title\n-x\n)title\n", RNCV_BROKEN, 13, 5);
    check_verdict(&schema, "(book\nAid 1\n(title\n-x\n)titel\n)book\n", RNCV_BROKEN, 8, 5);
    check_verdict(&schema, VALID, RNCV_VALID, 0, 0);
    rncv_schema_free(&schema);
}

static void refuse(const rncv_file *files, size_t count, int32_t clause, int64_t file) {
    rncv_schema schema = RNCV_NOTHING;
    rncv_fault fault = {7, 7, 7, 7, 7};
    CHECK(rncv_compile(files, count, &schema, &fault) == RNCV_REFUSED);
    CHECK(fault.clause == clause && fault.file == file);
    int has_place = clause >= 3 && clause <= 8;
    CHECK((fault.offset >= 0) == has_place && (fault.line > 0) == has_place && (fault.column > 0) == has_place);
    CHECK(schema.hidden == NULL);
}

static void refuses(void) {
    const char *main_text = "start = element book { empty }\ninclude \"bad.rnc\"\n";
    const char *bad = "part = element part { text";
    rncv_file bad_second[2] = {file_of("m.rnc", main_text), file_of("bad.rnc", bad)};
    rncv_file bad_third[3] = {file_of("m.rnc", main_text), file_of("other.rnc", PART), file_of("bad.rnc", bad)};
    rncv_file missing[1] = {file_of("m.rnc", main_text)};
    rncv_file twice[3] = {file_of("m.rnc", main_text), file_of("bad.rnc", PART), file_of("bad.rnc", PART)};
    rncv_file undefined[1] = {file_of("n.rnc", "start = element book { part }\n")};
    rncv_file itself[1] = {file_of("s.rnc", "external \"s.rnc\"")};
    rncv_file bad_bytes[1] = {file_of("s.rnc", "element caf\xE9 { empty }")};

    refuse(bad_second, 2, 6, 1);
    refuse(bad_third, 3, 6, 2);
    refuse(missing, 1, 1, -1);
    refuse(twice, 3, 1, 1);
    refuse(undefined, 1, 15, -1);
    refuse(itself, 1, 9, -1);
    refuse(bad_bytes, 1, 3, 0);
}

/* The name of the file that breaks a clause by itself is `name`; none if `name` is NULL. */
static void check_name(const rncv_file *files, size_t count, const char *name) {
    uint8_t buffer[16];
    size_t length = 99;
    memset(buffer, '.', sizeof buffer);
    int32_t status = rncv_refused_name(files, count, buffer, sizeof buffer, &length);
    if (name == NULL) {
        CHECK(status == RNCV_MISUSE && length == 99 && buffer[0] == '.');
        return;
    }
    size_t needed = strlen(name);
    CHECK(status == RNCV_DONE && length == needed);
    CHECK(memcmp(buffer, name, needed) == 0 && buffer[needed] == '.');
    /* exactly as much room as it needs, and too little */
    length = 99;
    CHECK(rncv_refused_name(files, count, buffer, needed, &length) == RNCV_DONE && length == needed);
    if (needed > 0) {
        memset(buffer, '.', sizeof buffer);
        length = 99;
        CHECK(rncv_refused_name(files, count, buffer, needed - 1, &length) == RNCV_SPACE && length == needed && buffer[0] == '.');
        length = 99;
        CHECK(rncv_refused_name(files, count, NULL, 0, &length) == RNCV_SPACE && length == needed);
    }
}

static void names_what_it_refuses(void) {
    const char *main_text = "start = element book { empty }\ninclude \"parts/b.rnc\"\n";
    rncv_file missing[2] = {file_of("m.rnc", main_text), file_of("b.rnc", PART)};
    rncv_file further[2] = {file_of("m.rnc", main_text), file_of("parts/b.rnc", "include \"c\xC3\xA9.rnc\"")};
    rncv_file nameless[1] = {file_of("m.rnc", "external \"\"")};
    rncv_file twice[3] = {file_of("m.rnc", main_text), file_of("parts/b.rnc", PART), file_of("parts/b.rnc", PART)};
    rncv_file broken[2] = {file_of("m.rnc", main_text), file_of("parts/b.rnc", "part = element part {")};
    rncv_file main_broken[1] = {file_of("m.rnc", "element a {")};
    rncv_file good[2] = {file_of("m.rnc", main_text), file_of("parts/b.rnc", PART)};
    rncv_file itself[1] = {file_of("s.rnc", "external \"s.rnc\"")};
    rncv_file undefined[1] = {file_of("n.rnc", "start = element book { part }\n")};

    check_name(missing, 2, "parts/b.rnc");
    check_name(further, 2, "c\xC3\xA9.rnc");
    check_name(nameless, 1, "");
    check_name(twice, 3, "parts/b.rnc");
    check_name(broken, 2, "parts/b.rnc");
    check_name(main_broken, 1, "m.rnc");
    check_name(good, 2, NULL);
    check_name(itself, 1, NULL);
    check_name(undefined, 1, NULL);
}

/* Without RNCV_DONE the handle is unchanged, and so is a document in progress. */
static void keeps_what_was_held(void) {
    rncv_schema schema = RNCV_NOTHING;
    rncv_file bad = file_of("s.rnc", "element a {");
    rncv_fault fault;
    rncv_verdict verdict;

    CHECK(compile("element a { empty }", &schema) == RNCV_DONE);
    CHECK(rncv_document_begin(&schema) == RNCV_DONE);
    CHECK(feed(&schema, "(a\n") == RNCV_DONE);
    CHECK(rncv_compile(&bad, 1, &schema, &fault) == RNCV_REFUSED);
    CHECK(feed(&schema, ")a\n") == RNCV_DONE);
    CHECK(rncv_document_end(&schema, &verdict) == RNCV_DONE && verdict.kind == RNCV_VALID);
    rncv_schema_free(&schema);
}

/* What a handle held is freed when something else is put into it, including a document in progress. */
static void puts_in_place(void) {
    rncv_schema schema = RNCV_NOTHING;
    rncv_schema other = RNCV_NOTHING;

    CHECK(compile("element a { empty }", &schema) == RNCV_DONE);
    CHECK(compile("element b { empty }", &schema) == RNCV_DONE);
    check_verdict(&schema, "(b\n)b\n", RNCV_VALID, 0, 0);
    CHECK(rncv_document_begin(&schema) == RNCV_DONE);
    CHECK(feed(&schema, "(b\n") == RNCV_DONE);
    CHECK(compile("element c { empty }", &schema) == RNCV_DONE);
    check_verdict(&schema, "(c\n)c\n", RNCV_VALID, 0, 0);
    check_verdict(&schema, "(b\n)b\n", RNCV_INVALID, 0, 2);

    CHECK(compile("element d { empty }", &other) == RNCV_DONE);
    CHECK(rncv_document_begin(&other) == RNCV_DONE);
    CHECK(rncv_schema_share(&schema, &other) == RNCV_DONE);
    check_verdict(&other, "(c\n)c\n", RNCV_VALID, 0, 0);
    rncv_schema_free(&schema);
    check_verdict(&other, "(c\n)c\n", RNCV_VALID, 0, 0);
    rncv_schema_free(&other);
}

static void prints(void) {
    rncv_schema schema = RNCV_NOTHING;
    size_t wanted = strlen(BOOK_SIMPLE);
    uint8_t buffer[512];
    size_t length = 99;

    compile_book(&schema);
    CHECK(rncv_simple(&schema, NULL, 0, &length) == RNCV_SPACE && length == wanted);
    memset(buffer, '.', sizeof buffer);
    length = 99;
    CHECK(rncv_simple(&schema, buffer, wanted - 1, &length) == RNCV_SPACE && length == wanted);
    CHECK(buffer[0] == '.' && memcmp(buffer, buffer + 1, sizeof buffer - 1) == 0);
    length = 99;
    CHECK(rncv_simple(&schema, buffer, sizeof buffer, &length) == RNCV_DONE && length == wanted);
    CHECK(memcmp(buffer, BOOK_SIMPLE, wanted) == 0);
    CHECK(buffer[wanted] == '.' && buffer[sizeof buffer - 1] == '.');
    memset(buffer, '.', sizeof buffer);
    CHECK(rncv_simple(&schema, buffer, wanted, &length) == RNCV_DONE && length == wanted);
    CHECK(memcmp(buffer, BOOK_SIMPLE, wanted) == 0 && buffer[wanted] == '.');
    rncv_schema_free(&schema);
}

static void knows_early(void) {
    rncv_schema schema = RNCV_NOTHING;
    rncv_verdict verdict;
    uint64_t line = 99;

    compile_book(&schema);
    CHECK(rncv_document_begin(&schema) == RNCV_DONE);
    CHECK(rncv_document_invalid_since(&schema, &line) == RNCV_DONE && line == 0);
    CHECK(feed(&schema, "(book\nAid 1\n(au") == RNCV_DONE);
    CHECK(rncv_document_invalid_since(&schema, &line) == RNCV_DONE && line == 0);
    CHECK(feed(&schema, "thor\n-x\n)author\n") == RNCV_DONE);
    CHECK(rncv_document_invalid_since(&schema, &line) == RNCV_DONE && line == 4);
    CHECK(feed(&schema, ")book\n") == RNCV_DONE);
    CHECK(rncv_document_invalid_since(&schema, &line) == RNCV_DONE && line == 4);
    CHECK(rncv_document_end(&schema, &verdict) == RNCV_DONE);
    CHECK(verdict.kind == RNCV_INVALID && verdict.line == 4);
    rncv_schema_free(&schema);
}

/* A document that is broken stays broken, and one that is dropped has no effect on the next. */
static void begins_anew(void) {
    rncv_schema schema = RNCV_NOTHING;
    rncv_verdict verdict;

    compile_book(&schema);
    CHECK(rncv_document_begin(&schema) == RNCV_DONE);
    CHECK(feed(&schema, "!\n") == RNCV_MALFORMED);
    CHECK(feed(&schema, "(book\n") == RNCV_MALFORMED);
    CHECK(rncv_document_feed(&schema, NULL, 0) == RNCV_MALFORMED);
    CHECK(rncv_document_begin(&schema) == RNCV_DONE);
    CHECK(feed(&schema, VALID) == RNCV_DONE);
    CHECK(rncv_document_feed(&schema, NULL, 0) == RNCV_DONE);
    CHECK(rncv_document_end(&schema, &verdict) == RNCV_DONE && verdict.kind == RNCV_VALID);
    /* a document in progress is freed with the handle */
    CHECK(rncv_document_begin(&schema) == RNCV_DONE);
    CHECK(feed(&schema, "(book\nAid 1\n(ti") == RNCV_DONE);
    rncv_schema_free(&schema);
}

static void serves_many_documents(void) {
    int count = is_quick() ? 200 : 10000;
    rncv_schema schema = RNCV_NOTHING;

    compile_book(&schema);
    for (int i = 0; i < count; i++) {
        int is_good = i % 3 != 0;
        rncv_verdict verdict = judged(&schema, is_good ? VALID : "(book\n(title\n-x\n)title\n)book\n", 4096);
        CHECK(verdict.kind == (is_good ? RNCV_VALID : RNCV_INVALID));
        CHECK(verdict.line == (is_good ? 0 : 2));
    }
    rncv_schema_free(&schema);
}

static void titles(void) {
    CHECK(rncv_clause_title('S', 0) == NULL && rncv_clause_title('S', 28) == NULL);
    CHECK(rncv_clause_title('P', 0) == NULL && rncv_clause_title('P', 14) == NULL);
    CHECK(rncv_clause_title('S', -1) == NULL && rncv_clause_title('Q', 1) == NULL);
    for (int32_t clause = 1; clause <= 27; clause++) {
        CHECK(rncv_clause_title('S', clause) != NULL && strlen(rncv_clause_title('S', clause)) > 10);
    }
    for (int32_t clause = 1; clause <= 13; clause++) {
        CHECK(rncv_clause_title('P', clause) != NULL && strlen(rncv_clause_title('P', clause)) > 10);
    }
    CHECK(strcmp(rncv_clause_title('S', 14), "a grammar has a start (4.18)") == 0);
    CHECK(strcmp(rncv_clause_title('P', 1), "each line is ended by a line feed (profile)") == 0);
}

/* The version is that of the header. A library without proofs says so behind it. */
static void version(void) {
    const char *text = rncv_version();
    size_t length = strlen(RNCV_VERSION);
    CHECK(strncmp(text, RNCV_VERSION, length) == 0);
    CHECK(text[length] == 0 || strcmp(text + length, " (not proved)") == 0);
}

/* The two sets of datatypes: which schemas are refused, and what texts are taken. Handles that share a schema have its set. */
static void sets(void) {
    static const char larger[] = "element a { attribute b { xsd:positiveInteger { maxExclusive = \"9\" } }, xsd:language }";
    static const char both[] = "element a { attribute b { xsd:integer }, xsd:token }";
    static const char long_number[] = "(a\nAb 1000000000000000000000000000000000000000\n-de-AT\n)a\n";
    rncv_schema schema = RNCV_NOTHING;
    rncv_schema other = RNCV_NOTHING;
    rncv_fault fault = {0, 0, 0, 0, 0};
    rncv_verdict verdict;
    rncv_file file = file_of("s.rnc", larger);
    CHECK(rncv_compile(&file, 1, &schema, &fault) == RNCV_REFUSED && fault.clause == 12 && fault.file == -1);
    fault.clause = 0;
    CHECK(rncv_compile_with(&file, 1, RNCV_DATATYPES_PROFILE, &schema, &fault) == RNCV_REFUSED && fault.clause == 12);
    CHECK(rncv_compile_with(&file, 1, RNCV_DATATYPES_XML_SCHEMA, &schema, &fault) == RNCV_DONE);
    CHECK(rncv_schema_share(&schema, &other) == RNCV_DONE);
    rncv_schema_free(&schema);
    CHECK(rncv_document_begin(&other) == RNCV_DONE && feed(&other, "(a\nAb +08\n-de-AT\n)a\n") == RNCV_DONE);
    CHECK(rncv_document_end(&other, &verdict) == RNCV_DONE && verdict.kind == RNCV_VALID);
    CHECK(rncv_document_begin(&other) == RNCV_DONE && feed(&other, "(a\nAb 9\n-de-AT\n)a\n") == RNCV_DONE);
    CHECK(rncv_document_end(&other, &verdict) == RNCV_DONE && verdict.kind == RNCV_INVALID && verdict.line == 3);
    file = file_of("s.rnc", both);
    for (uint32_t set = RNCV_DATATYPES_PROFILE; set <= RNCV_DATATYPES_XML_SCHEMA; set++) {
        CHECK(rncv_compile_with(&file, 1, set, &other, &fault) == RNCV_DONE);
        CHECK(rncv_document_begin(&other) == RNCV_DONE && feed(&other, long_number) == RNCV_DONE);
        CHECK(rncv_document_end(&other, &verdict) == RNCV_DONE);
        CHECK(verdict.kind == (set == RNCV_DATATYPES_PROFILE ? RNCV_INVALID : RNCV_VALID));
    }
    rncv_schema_free(&other);
}

int main(void) {
    judges();
    refuses();
    names_what_it_refuses();
    keeps_what_was_held();
    puts_in_place();
    prints();
    knows_early();
    begins_anew();
    sets();
    serves_many_documents();
    titles();
    version();
    return outcome("judging");
}
