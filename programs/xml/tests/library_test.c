/* Tests of the library that judges XML: answers, misuse, many calls in odd orders, threads. The argument is an empty folder, in which it works. */
#include <rncv_xml.h>

#include <pthread.h>
#include <stdbool.h>
#include <stdio.h>
#include <stdlib.h>
#include <string.h>
#include <unistd.h>

enum { CALLS = 10000, THREADS = 4, TIMES = 200 };

static int failures = 0;

#define CHECK(fact)                                                            \
    do {                                                                       \
        if (!(fact)) {                                                         \
            fprintf(stderr, "%s:%d: not so: %s\n", __FILE__, __LINE__, #fact); \
            failures += 1;                                                     \
        }                                                                      \
    } while (0)

static const char schema_text[] = "element a { attribute x { \"1\" }, element b { \"two\" } }\n";

/* A document, and the answer that it should have. */
struct row {
    const char *document;
    int32_t verdict;
    int32_t at;
    int32_t clause;
    uint64_t line;
    uint64_t column;
    const char *name;
    const char *message; /* its beginning */
};

static const struct row rows[] = {
    {"<a x='1'><b>two</b></a>", RNCV_XML_VALID, RNCV_XML_AT_UNKNOWN, 0, 0, 0, "", ""},
    {"<a x='1'>\n <c>two</c></a>", RNCV_XML_INVALID, RNCV_XML_AT_ELEMENT, 0, 2, 2, "c", "invalid: <c> is not allowed here; expected <b>"},
    {"<a x='2'><b>two</b></a>", RNCV_XML_INVALID, RNCV_XML_AT_ATTRIBUTE, 0, 1, 1, "x", "invalid: attribute x of <a> is wrong (\"2\"); expected \"1\""},
    {"<a x='1'><b>three</b></a>", RNCV_XML_INVALID, RNCV_XML_AT_TEXT, 0, 1, 13, "three", "invalid: the text of <b> is wrong (\"three\"); expected \"two\""},
    {"<a x='1'>\n</a>", RNCV_XML_INVALID, RNCV_XML_AT_END, 0, 2, 1, "a", "invalid: <a> ends too early: expected <b>"},
    {"<a x='1'><b>two</c></a>", RNCV_XML_MALFORMED, RNCV_XML_AT_UNKNOWN, 0, 1, 0, "", ""},
    {"", RNCV_XML_MALFORMED, RNCV_XML_AT_UNKNOWN, 0, 1, 0, "", ""},
    {"<a x='1'><y:b/></a>", RNCV_XML_MALFORMED, RNCV_XML_AT_UNKNOWN, 11, 1, 10, "", "malformed P11"},
    {"<!DOCTYPE a SYSTEM 'e'><a>&e;</a>", RNCV_XML_OUTSIDE, RNCV_XML_AT_UNKNOWN, 0, 1, 0, "", "entity 'e'"},
};

enum { ROWS = sizeof rows / sizeof *rows };

static void write_file(const char *name, const char *text) {
    FILE *file = fopen(name, "wb");
    bool is_written = file != NULL && fwrite(text, 1, strlen(text), file) == strlen(text);
    CHECK(is_written);
    if (file != NULL) {
        CHECK(fclose(file) == 0);
    }
}

/* What a function reads from, in small steps. */
struct text {
    const char *left;
    size_t step;
    rncv_xml_judge *judge; /* is called meanwhile */
};

static void read_text(rncv_xml_piece *piece) {
    struct text *text = piece->context;
    size_t length = strlen(text->left);
    CHECK(piece->length == SIZE_MAX);
    length = length < text->step ? length : text->step;
    piece->length = length < piece->size ? length : piece->size;
    memcpy(piece->bytes, text->left, piece->length);
    text->left += piece->length;
}

static void fail(rncv_xml_piece *piece) {
    (void)piece;
}

static void give_too_much(rncv_xml_piece *piece) {
    piece->length = piece->size + 1;
}

/* Calls for the judge that is judging: none does anything. */
static void read_and_call(rncv_xml_piece *piece) {
    struct text *text = piece->context;
    rncv_xml_judge other = RNCV_XML_NOTHING;
    rncv_xml_answer answer;
    rncv_schema schema = RNCV_NOTHING;
    size_t count = 0;
    CHECK(rncv_xml_judge_bytes(text->judge, "<a/>", 4, &answer) == RNCV_MISUSE && answer.verdict == RNCV_XML_FAILED);
    CHECK(rncv_xml_judge_file(text->judge, "s.rnc", &answer) == RNCV_MISUSE);
    CHECK(rncv_xml_judge_by(text->judge, read_text, text, &answer) == RNCV_MISUSE);
    CHECK(rncv_xml_judge_share(text->judge, &other) == RNCV_MISUSE && other.hidden == NULL);
    CHECK(rncv_xml_judge_again(text->judge, read_text, text, 9, &count) == RNCV_MISUSE && rncv_xml_judge_hint(text->judge, 0, &answer) == RNCV_MISUSE);
    CHECK(rncv_xml_judge_open("s.rnc", NULL, 0, text->judge, NULL) == RNCV_MISUSE);
    CHECK(rncv_xml_judge_new(&schema, NULL, 0, text->judge) == RNCV_MISUSE);
    rncv_xml_judge_free(text->judge);
    CHECK(text->judge->hidden != NULL);
    read_text(piece);
}

static bool begins(const char *text, const char *with) {
    return strncmp(text, with, strlen(with)) == 0;
}

static bool is_row(int32_t status, const rncv_xml_answer *answer, const struct row *row) {
    return status == RNCV_DONE && answer->verdict == row->verdict && answer->at == row->at && answer->clause == row->clause && answer->error == 0 &&
           answer->line == row->line && (row->column == 0 || answer->column == row->column) && strcmp(answer->name, row->name) == 0 &&
           begins(answer->message, row->message) && (answer->message[0] == '\0') == (row->verdict == RNCV_XML_VALID);
}

/* Judges a row's document in each way. */
static void judge_row(rncv_xml_judge *judge, const struct row *row) {
    rncv_xml_answer answer;
    int32_t status = rncv_xml_judge_bytes(judge, row->document, strlen(row->document), &answer);
    if (!is_row(status, &answer, row)) {
        fprintf(stderr, "%s: status %d, verdict %d, at %d, %s at %d:%d, clause %d\n", row->document, (int)status, (int)answer.verdict, (int)answer.at,
                answer.message, (int)answer.line, (int)answer.column, (int)answer.clause);
        failures += 1;
    }
    for (size_t step = 1; step < 100; step = 3 * step) {
        struct text text = {row->document, step, NULL};
        status = rncv_xml_judge_by(judge, read_text, &text, &answer);
        CHECK(is_row(status, &answer, row));
    }
    write_file("d.xml", row->document);
    status = rncv_xml_judge_file(judge, "d.xml", &answer);
    CHECK(is_row(status, &answer, row));
}

/* What is told is this, and at most one text was expected. */
static bool tells(const rncv_xml_answer *answer, const char *reason, const char *attribute, const char *datatype, const char *expected) {
    return strcmp(answer->reason, reason) == 0 && strcmp(answer->attribute, attribute) == 0 && strcmp(answer->datatype, datatype) == 0 &&
           strcmp(answer->expected, expected) == 0 && answer->expected_count == (expected[0] != '\0');
}

/* What is wrong with a document, apart from the message. */
static void reasons(rncv_xml_judge *judge) {
    static const struct {
        const char *document, *reason, *attribute, *expected;
    } told[] = {
        {"<a x='1'><b>two</b></a>", "", "", ""},
        {"<a x='1'><c>two</c></a>", "element-not-allowed", "", "<b>"},
        {"<a x='2'><b>two</b></a>", "attribute-value", "x", "\"1\""},
        {"<a y='2' x='1'/>", "attribute-not-allowed", "y", ""},
        {"<a/>", "attributes-missing", "x", "x"},
        {"<a x='1'>t<b/></a>", "text-not-allowed", "", "<b>"},
        {"<a x='1'><b>three</b></a>", "text-value", "", "\"two\""},
        {"<a x='1'></a>", "incomplete", "", "<b>"},
        {"<a x='1'>", "", "", ""},
    };
    rncv_xml_answer answer;
    for (size_t at = 0; at < sizeof told / sizeof *told; at++) {
        CHECK(rncv_xml_judge_bytes(judge, told[at].document, strlen(told[at].document), &answer) == RNCV_DONE);
        CHECK(tells(&answer, told[at].reason, told[at].attribute, "", told[at].expected));
    }
    CHECK(rncv_xml_judge_file(judge, "none.xml", &answer) == RNCV_DONE && tells(&answer, "", "", "", ""));
}

/* Looks for further faults of the document that was judged last. */
static size_t hints_of(rncv_xml_judge *judge, const char *document, size_t most) {
    struct text text = {document, 7, NULL};
    size_t count = 77;
    CHECK(rncv_xml_judge_again(judge, read_text, &text, most, &count) == RNCV_DONE);
    return count;
}

static bool is_hint(rncv_xml_judge *judge, size_t index, int32_t at, uint64_t column, const char *name, const char *message) {
    rncv_xml_answer hint;
    return rncv_xml_judge_hint(judge, index, &hint) == RNCV_DONE && hint.verdict == RNCV_XML_INVALID && hint.at == at && hint.line == 1 &&
           hint.column == column && strcmp(hint.name, name) == 0 && strcmp(hint.message, message) == 0 && hint.notes[0] == '\0';
}

/* Further faults of a document. The answer for it stays. */
static void further(rncv_xml_judge *judge) {
    static const char faulty[] = "<a x='2'><b>one</b><c/></a>";
    static const char *const others[] = {"<a x='1'><b>two</b></a>", "<a x='2'><b>one</b></c>", "<a x='2'>&e;<b>one</b></a>"};
    struct text text = {faulty, 3, judge};
    rncv_xml_answer answer;
    rncv_xml_answer hint;
    size_t count = 77;
    CHECK(rncv_xml_judge_bytes(judge, faulty, strlen(faulty), &answer) == RNCV_DONE && rncv_xml_judge_hint(judge, 0, &hint) == RNCV_MISUSE);
    CHECK(hints_of(judge, faulty, 9) == 2 && hints_of(judge, faulty, SIZE_MAX) == 2);
    CHECK(is_hint(judge, 0, RNCV_XML_AT_TEXT, 13, "one", "hint: the text of <b> is wrong (\"one\"); expected \"two\""));
    CHECK(is_hint(judge, 1, RNCV_XML_AT_ELEMENT, 20, "c", "hint: <c> is not allowed here; expected the end of <a>"));
    CHECK(rncv_xml_judge_hint(judge, 0, &hint) == RNCV_DONE && tells(&hint, "text-value", "", "", "\"two\""));
    CHECK(rncv_xml_judge_hint(judge, 2, &hint) == RNCV_MISUSE && hint.verdict == RNCV_XML_FAILED && hint.message[0] == '\0');
    CHECK(answer.verdict == RNCV_XML_INVALID && begins(answer.message, "invalid: attribute x of <a>") && strcmp(answer.name, "x") == 0);
    CHECK(hints_of(judge, faulty, 1) == 1 && hints_of(judge, faulty, 0) == 0 && hints_of(judge, faulty, 1) == 1);
    CHECK(rncv_xml_judge_again(judge, read_and_call, &text, 9, &count) == RNCV_DONE && count == 2);
    CHECK(rncv_xml_judge_again(judge, fail, NULL, 9, &count) == RNCV_DONE && count == 0);
    CHECK(rncv_xml_judge_again(judge, give_too_much, NULL, 9, &count) == RNCV_DONE && count == 0);
    CHECK(rncv_xml_judge_again(judge, NULL, NULL, 9, &count) == RNCV_MISUSE && rncv_xml_judge_again(judge, fail, NULL, 9, NULL) == RNCV_MISUSE);
    CHECK(rncv_xml_judge_again(NULL, fail, NULL, 9, &count) == RNCV_MISUSE && rncv_xml_judge_hint(NULL, 0, &hint) == RNCV_MISUSE);
    CHECK(hints_of(judge, faulty, 9) == 2);
    CHECK(rncv_xml_judge_file(judge, "none.xml", &answer) == RNCV_DONE && rncv_xml_judge_hint(judge, 0, &hint) == RNCV_MISUSE);
    for (size_t at = 0; at < sizeof others / sizeof *others; at++) {
        CHECK(rncv_xml_judge_bytes(judge, others[at], strlen(others[at]), &answer) == RNCV_DONE && hints_of(judge, faulty, 9) == 0);
    }
}

/* Which token of a list is wrong. */
static void tokens(void) {
    static const struct {
        const char *document, *token;
    } told[] = {
        {"<a x='1 2'><b>v w</b></a>", ""},
        {"<a y='1'/>", ""},
        {"<a x='1'><b>v</b></a>", ""},
        {"<a x='1'><b>v w x</b></a>", "x"},
        {"<a x='1'><b>v\n\xC3\xA9 x</b></a>", "\xC3\xA9"},
        {"<a x='1 3 2 4'><b>v x</b></a>", "3"},
    };
    const char *last = told[sizeof told / sizeof *told - 1].document;
    rncv_xml_judge judge = RNCV_XML_NOTHING;
    rncv_xml_answer answer;
    write_file("lists.rnc", "element a { attribute x { list { ('1' | '2')+ } }, element b { list { 'v', 'w' } }* }");
    CHECK(rncv_xml_judge_open("lists.rnc", NULL, 0, &judge, NULL) == RNCV_DONE);
    for (size_t at = 0; at < sizeof told / sizeof *told; at++) {
        CHECK(rncv_xml_judge_bytes(&judge, told[at].document, strlen(told[at].document), &answer) == RNCV_DONE);
        CHECK(strcmp(answer.token, told[at].token) == 0);
    }
    CHECK(hints_of(&judge, last, 9) == 1 && rncv_xml_judge_hint(&judge, 0, &answer) == RNCV_DONE && strcmp(answer.token, "x") == 0);
    CHECK(rncv_xml_judge_hint(&judge, 1, &answer) == RNCV_MISUSE && answer.token[0] == '\0');
    CHECK(rncv_xml_judge_file(&judge, "none.xml", &answer) == RNCV_DONE && answer.token[0] == '\0');
    rncv_xml_judge_free(&judge);
}

static void answers(rncv_xml_judge *judge) {
    rncv_xml_answer answer;
    for (size_t at = 0; at < ROWS; at++) {
        judge_row(judge, &rows[at]);
    }
    reasons(judge);
    further(judge);
    tokens();
    /* a document with a note */
    const char *noted = "<!DOCTYPE a SYSTEM 'a.dtd'><a x='1'><b>two</b></a>";
    CHECK(rncv_xml_judge_bytes(judge, noted, strlen(noted), &answer) == RNCV_DONE && answer.verdict == RNCV_XML_VALID);
    CHECK(answer.note_count == 1 && begins(answer.notes, "1:") && strstr(answer.notes, ": note: ") != NULL && strchr(answer.notes, '\n') != NULL);
    /* files and functions that fail, and a good document after them */
    CHECK(rncv_xml_judge_file(judge, "none.xml", &answer) == RNCV_DONE && answer.verdict == RNCV_XML_FAILED && answer.error != 0);
    CHECK(strcmp(answer.message, strerror(answer.error)) == 0 && answer.line == 0);
    CHECK(rncv_xml_judge_file(judge, ".", &answer) == RNCV_DONE && answer.verdict == RNCV_XML_FAILED && answer.error != 0);
    CHECK(rncv_xml_judge_by(judge, fail, NULL, &answer) == RNCV_DONE && answer.verdict == RNCV_XML_FAILED && answer.error == 0);
    CHECK(rncv_xml_judge_by(judge, give_too_much, NULL, &answer) == RNCV_DONE && answer.verdict == RNCV_XML_FAILED);
    /* the name is no sign for standard input */
    CHECK(rncv_xml_judge_file(judge, "-", &answer) == RNCV_DONE && answer.verdict == RNCV_XML_FAILED && answer.error != 0);
    judge_row(judge, &rows[0]);
}

/* Calls from the function that reads: those for the same judge do nothing. */
static void calls_meanwhile(rncv_xml_judge *judge) {
    rncv_xml_answer answer;
    struct text text = {rows[0].document, 5, judge};
    CHECK(rncv_xml_judge_by(judge, read_and_call, &text, &answer) == RNCV_DONE && answer.verdict == RNCV_XML_VALID);
}

static void misuse(rncv_xml_judge *judge) {
    rncv_xml_judge nothing = RNCV_XML_NOTHING;
    rncv_xml_answer answer = {.verdict = RNCV_XML_VALID};
    rncv_xml_files files = RNCV_XML_NO_FILES;
    rncv_xml_fault fault = RNCV_XML_NO_FAULT;
    rncv_xml_mapping unmapped = {NULL, "s.rnc"};
    rncv_schema schema = RNCV_NOTHING;
    rncv_fault refused = {1, -1, -1, -1, -1};
    rncv_file file = {NULL, 0, NULL, 0};
    rncv_file good = {(const uint8_t *)"", 0, (const uint8_t *)"element a { text }", 18};
    rncv_file incomplete[] = {{NULL, 1, (const uint8_t *)"", 0}, {NULL, 0, NULL, 1}};
    rncv_xml_hint hint;
    int32_t changed = 7;
    CHECK(rncv_xml_judge_bytes(&nothing, "", 0, &answer) == RNCV_MISUSE && answer.verdict == RNCV_XML_FAILED && answer.message[0] == '\0');
    CHECK(rncv_xml_judge_bytes(NULL, "", 0, &answer) == RNCV_MISUSE && rncv_xml_judge_bytes(judge, "", 0, NULL) == RNCV_MISUSE);
    CHECK(rncv_xml_judge_bytes(judge, NULL, 1, &answer) == RNCV_MISUSE);
    CHECK(rncv_xml_judge_bytes(judge, NULL, 0, &answer) == RNCV_DONE && answer.verdict == RNCV_XML_MALFORMED);
    CHECK(rncv_xml_judge_file(judge, NULL, &answer) == RNCV_MISUSE && rncv_xml_judge_file(&nothing, "s.rnc", &answer) == RNCV_MISUSE);
    CHECK(rncv_xml_judge_by(judge, NULL, NULL, &answer) == RNCV_MISUSE && rncv_xml_judge_by(&nothing, fail, NULL, &answer) == RNCV_MISUSE);
    CHECK(rncv_xml_judge_share(&nothing, judge) == RNCV_MISUSE && rncv_xml_judge_share(judge, judge) == RNCV_MISUSE);
    CHECK(rncv_xml_judge_share(judge, NULL) == RNCV_MISUSE && rncv_xml_judge_share(NULL, judge) == RNCV_MISUSE);
    CHECK(rncv_xml_judge_open(NULL, NULL, 0, judge, &fault) == RNCV_MISUSE && rncv_xml_judge_open("s.rnc", NULL, 1, judge, &fault) == RNCV_MISUSE);
    CHECK(rncv_xml_judge_open("s.rnc", NULL, 0, NULL, &fault) == RNCV_MISUSE && rncv_xml_judge_open("s.rnc", &unmapped, 1, judge, NULL) == RNCV_MISUSE);
    CHECK(rncv_xml_judge_new(&schema, NULL, 0, judge) == RNCV_MISUSE && rncv_xml_judge_new(NULL, NULL, 0, judge) == RNCV_MISUSE);
    CHECK(rncv_xml_judge_new(&schema, NULL, 1, judge) == RNCV_MISUSE && rncv_xml_judge_new(&schema, NULL, 0, NULL) == RNCV_MISUSE);
    CHECK(rncv_xml_files_find(NULL, NULL, 0, &files, &fault) == RNCV_MISUSE && rncv_xml_files_find("s.rnc", NULL, 0, NULL, &fault) == RNCV_MISUSE);
    CHECK(rncv_xml_files_explain(&files, &refused, &fault) == RNCV_MISUSE && rncv_xml_files_explain(NULL, NULL, NULL) == RNCV_MISUSE);
    CHECK(rncv_xml_hint_find(NULL, NULL, 1, 15, &hint) == RNCV_MISUSE && rncv_xml_hint_find(&file, NULL, 0, 15, &hint) == RNCV_MISUSE);
    CHECK(rncv_xml_hint_find(&file, NULL, 1, 15, NULL) == RNCV_MISUSE);
    CHECK(rncv_compile(&good, 1, &schema, &refused) == RNCV_DONE);
    for (size_t at = 0; at < 2; at++) {
        CHECK(rncv_xml_hint_find(&incomplete[at], NULL, 1, 15, &hint) == RNCV_MISUSE);
        CHECK(rncv_xml_judge_new(&schema, &incomplete[at], 1, &nothing) == RNCV_MISUSE && nothing.hidden == NULL);
    }
    rncv_schema_free(&schema);
    CHECK(rncv_xml_annotations_blank(NULL, 1, &changed) == RNCV_MISUSE && rncv_xml_annotations_blank(NULL, 0, NULL) == RNCV_MISUSE && changed == 7);
    rncv_xml_judge_free(NULL);
    rncv_xml_judge_free(&nothing);
    rncv_xml_files_free(NULL);
    rncv_xml_files_free(&files);
    rncv_xml_fault_free(NULL);
    rncv_xml_fault_free(&fault);
    judge_row(judge, &rows[0]);
}

/* The files of a schema, found and compiled by hand. */
static void files_by_hand(void) {
    rncv_xml_files files = RNCV_XML_NO_FILES;
    rncv_xml_fault fault = RNCV_XML_NO_FAULT;
    rncv_xml_judge judge = RNCV_XML_NOTHING;
    rncv_schema schema = RNCV_NOTHING;
    rncv_fault refused;
    rncv_xml_mapping mapping = {"http://example.org/b.rnc", "b.rnc"};
    write_file("b.rnc", schema_text);
    write_file("main.rnc", "external 'http://example.org/b.rnc'\n");
    CHECK(rncv_xml_files_find("main.rnc", NULL, 0, &files, &fault) == RNCV_DONE && files.count == 1);
    CHECK(rncv_compile(files.list, files.count, &schema, &refused) == RNCV_REFUSED);
    CHECK(rncv_xml_files_explain(&files, &refused, &fault) == RNCV_DONE && fault.clause == 1 && fault.line == 1 && fault.column == 10);
    CHECK(strcmp(fault.path, "main.rnc") == 0 && strcmp(fault.missing, "http://example.org/b.rnc") == 0);
    CHECK(begins(fault.message, "S1 ") && strstr(fault.message, ": there is no http://example.org/b.rnc, and nothing is fetched") != NULL);
    CHECK(rncv_xml_files_find("main.rnc", &mapping, 1, &files, &fault) == RNCV_DONE && files.count == 2 && fault.message == NULL);
    CHECK(strcmp(files.paths[1], "b.rnc") == 0 && strcmp((const char *)files.list[1].name, mapping.href) == 0);
    CHECK(rncv_compile(files.list, files.count, &schema, &refused) == RNCV_DONE);
    CHECK(rncv_xml_judge_new(&schema, files.list, files.count, &judge) == RNCV_DONE);
    rncv_xml_files_free(&files);
    for (size_t at = 0; at < ROWS; at++) {
        judge_row(&judge, &rows[at]);
    }
    /* a file whose name is that of standard input elsewhere */
    write_file("-", schema_text);
    write_file("dash.rnc", "external '-'\n");
    CHECK(rncv_xml_judge_open("dash.rnc", NULL, 0, &judge, &fault) == RNCV_DONE && rncv_xml_judge_open("-", NULL, 0, &judge, &fault) == RNCV_DONE);
    judge_row(&judge, &rows[0]);
    CHECK(remove("-") == 0);
    /* while a document is in progress the schema is not shared */
    CHECK(rncv_document_begin(&schema) == RNCV_DONE && rncv_xml_judge_new(&schema, NULL, 0, &judge) == RNCV_MISUSE);
    rncv_schema_free(&schema);
    judge_row(&judge, &rows[0]);
    rncv_xml_judge_free(&judge);
    rncv_xml_fault_free(&fault);
}

/* Schemas that no judge is made of. What the handle held stays. */
static void refused_schemas(rncv_xml_judge *judge) {
    rncv_xml_fault fault = RNCV_XML_NO_FAULT;
    rncv_xml_mapping unmapped = {NULL, "s.rnc"};
    write_file("cut.rnc", "element a {\n  empty");
    CHECK(rncv_xml_judge_open("cut.rnc", NULL, 0, judge, &fault) == RNCV_REFUSED && fault.clause == 6 && fault.line == 2 && fault.column == 8);
    CHECK(strcmp(fault.path, "cut.rnc") == 0 && begins(fault.message, "S6 ") && fault.missing == NULL);
    CHECK(rncv_xml_judge_open("none.rnc", NULL, 0, judge, &fault) == RNCV_XML_UNREAD && fault.clause == 0 && strstr(fault.message, "none.rnc") != NULL);
    CHECK(rncv_xml_judge_open("-", NULL, 0, judge, &fault) == RNCV_XML_UNREAD);
    CHECK(rncv_xml_judge_open(".", NULL, 0, judge, NULL) == RNCV_XML_UNREAD);
    write_file("half.rnc", "include 'lost.rnc' start = a\n");
    CHECK(rncv_xml_judge_open("./half.rnc", NULL, 0, judge, &fault) == RNCV_REFUSED && fault.clause == 1 && strcmp(fault.missing, "lost.rnc") == 0);
    CHECK(fault.line == 1 && fault.column == 9 && strcmp(fault.path, "./half.rnc") == 0);
    CHECK(rncv_xml_judge_open("./half.rnc", NULL, 0, judge, NULL) == RNCV_REFUSED);
    CHECK(rncv_xml_judge_open("s.rnc", &unmapped, 1, judge, &fault) == RNCV_MISUSE && fault.clause == 1 && fault.message != NULL);
    CHECK(rncv_xml_judge_open(fault.path, NULL, 0, judge, &fault) == RNCV_REFUSED && strcmp(fault.path, "./half.rnc") == 0); /* its own text */
    write_file("half.rnc", "external ''\n");
    CHECK(rncv_xml_judge_open("half.rnc", NULL, 0, judge, &fault) == RNCV_REFUSED && fault.clause == 1 && strcmp(fault.missing, "") == 0);
    judge_row(judge, &rows[0]);
    rncv_xml_fault_free(&fault);
}

/* Hints about files that are refused. */
static void hints(rncv_xml_judge *judge) {
    static const char first[] = "include 'b.rnc' start =\n a", second[] = "a = element x { attribute y { text },\n \xC3\xA9 }\n";
    static const char twice[] = "element a { attribute b { text }, attribute b { text } }";
    rncv_xml_fault fault = RNCV_XML_NO_FAULT;
    rncv_xml_hint hint = {.line = 7};
    rncv_file files[] = {{NULL, 0, (const uint8_t *)first, strlen(first)}, {(const uint8_t *)"b.rnc", 5, (const uint8_t *)second, strlen(second)}};
    rncv_file file = {(const uint8_t *)"t", 1, (const uint8_t *)twice, strlen(twice)};
    const char *paths[] = {NULL, "d/b.rnc"};
    CHECK(rncv_xml_hint_find(files, NULL, 2, 15, &hint) == RNCV_DONE && hint.file == 1 && hint.line == 2 && hint.column == 2);
    CHECK(strcmp(hint.text, "\xC3\xA9 is not defined") == 0);
    CHECK(rncv_xml_hint_find(files, paths, 2, 14, &hint) == RNCV_DONE && hint.line == 0 && hint.text[0] == '\0');
    CHECK(rncv_xml_hint_find(files, paths, 2, 6, &hint) == RNCV_DONE && rncv_xml_hint_find(files, paths, 2, -1, &hint) == RNCV_DONE && hint.line == 0);
    CHECK(rncv_xml_hint_find(&file, NULL, 1, 24, &hint) == RNCV_DONE && hint.line == 1 && hint.column == 35);
    CHECK(strcmp(hint.text, "attribute b is there twice in element a (the other is at 1:13)") == 0);
    write_file("hinted.rnc", first);
    write_file("b.rnc", second);
    CHECK(rncv_xml_judge_open("./hinted.rnc", NULL, 0, judge, &fault) == RNCV_REFUSED && fault.clause == 15 && fault.line == 2 && fault.column == 2);
    CHECK(strcmp(fault.path, "./b.rnc") == 0 && begins(fault.message, "S15 ") && strstr(fault.message, ": hint: \xC3\xA9 is not defined") != NULL);
    write_file("hinted.rnc", "start = element a { xsd:string { pattern = '(' } }");
    CHECK(rncv_xml_judge_open("hinted.rnc", NULL, 0, judge, &fault) == RNCV_REFUSED && fault.clause == 12 && fault.line == 1);
    CHECK(strcmp(fault.path, "hinted.rnc") == 0 && fault.missing == NULL);
    CHECK(strstr(fault.message, ": hint: the parameter pattern of xsd:string is of the datatypes xml-schema, and not of those of the profile: "
                                 "rncv-profile hinted.rnc -o DIR") != NULL);
    judge_row(judge, &rows[0]);
    rncv_xml_fault_free(&fault);
}

/* Whether the judge says that of a document. */
static bool says(rncv_xml_judge *judge, const char *document, int32_t verdict, const char *message) {
    rncv_xml_answer answer;
    int32_t status = rncv_xml_judge_bytes(judge, document, strlen(document), &answer);
    return status == RNCV_DONE && answer.verdict == verdict && strcmp(answer.message, message) == 0;
}

/* IDs, by copies as rncv-profile writes them. */
static void ids(rncv_xml_judge *judge) {
    static const char copy[] = "element a { attribute x { xsd:NCName { minLength = '000000001' } }, element b { attribute y { xsd:NCName { minLength = "
                               "'00000001' } } }* }\n# rncv-profile: 2 ID-types marked, see ids.profile.txt\n";
    static const char unsound[] = "element a { xsd:NCName { minLength = '000000001' } }\n# rncv-profile: 1 ID-type marked, see ids.profile.txt\n";
    static const char good[] = "<a x='p'><b y='p'/></a>";
    static const char bad[] = "<a x='p'>\n<b y='q'/></a>";
    rncv_file file = {(const uint8_t *)"s.rnc", 5, (const uint8_t *)copy, strlen(copy)};
    rncv_schema schema = RNCV_NOTHING;
    rncv_xml_judge own = RNCV_XML_NOTHING;
    rncv_xml_judge other = RNCV_XML_NOTHING;
    rncv_xml_answer answer;
    rncv_fault refused;
    CHECK(rncv_compile(&file, 1, &schema, &refused) == RNCV_DONE);
    CHECK(rncv_xml_judge_new(&schema, &file, 1, &own) == RNCV_DONE && rncv_xml_judge_share(&own, &other) == RNCV_DONE);
    CHECK(says(&own, good, RNCV_XML_VALID, "") && says(&own, bad, RNCV_XML_INVALID, "invalid: no ID \"q\""));
    CHECK(rncv_xml_judge_bytes(&own, bad, strlen(bad), &answer) == RNCV_DONE && answer.line == 2 && answer.column == 1);
    CHECK(answer.at == RNCV_XML_AT_ATTRIBUTE && strcmp(answer.name, "y") == 0 && answer.note_count == 0);
    CHECK(rncv_xml_judge_ids(&own, 0) == RNCV_DONE && says(&own, bad, RNCV_XML_VALID, "") && says(&other, bad, RNCV_XML_INVALID, "invalid: no ID \"q\""));
    CHECK(rncv_xml_judge_ids(&own, 1) == RNCV_DONE && says(&own, bad, RNCV_XML_INVALID, "invalid: no ID \"q\"") && says(&own, good, RNCV_XML_VALID, ""));
    CHECK(rncv_xml_judge_new(&schema, NULL, 0, &other) == RNCV_DONE && says(&other, bad, RNCV_XML_VALID, ""));
    write_file("ids.rnc", unsound);
    CHECK(rncv_xml_judge_open("ids.rnc", NULL, 0, &other, NULL) == RNCV_DONE);
    CHECK(rncv_xml_judge_bytes(&other, "<a>p</a>", 8, &answer) == RNCV_DONE && answer.verdict == RNCV_XML_VALID && answer.note_count == 1);
    CHECK(strcmp(answer.notes, "1:1: note: IDs are not checked: an ID-type is not directly in an attribute in element a\n") == 0);
    rncv_schema_free(&schema);
    rncv_xml_judge_free(&own);
    rncv_xml_judge_free(&other);
    CHECK(rncv_xml_judge_ids(&own, 1) == RNCV_MISUSE && rncv_xml_judge_ids(NULL, 0) == RNCV_MISUSE);
    judge_row(judge, &rows[0]);
}

/* Writes a file of components that are in 110 divs. */
static void write_deep_file(const char *name, const char *first, const char *inside) {
    char text[2000];
    strcpy(text, first);
    for (int at = 0; at < 110; at++) {
        strcat(text, "div { ");
    }
    strcat(text, inside);
    for (int at = 0; at < 110; at++) {
        strcat(text, " }");
    }
    write_file(name, text);
}

/* Without a hint about S12 the library has the place. The search for a hint does not go so deep. */
static void places_of_datatypes(rncv_xml_judge *judge) {
    rncv_xml_fault fault = RNCV_XML_NO_FAULT;
    write_deep_file("deep.rnc", "start = element a { x }\n", "include 'b.rnc'");
    write_deep_file("b.rnc", "", "include 'c.rnc'");
    write_deep_file("c.rnc", "", "include 'd.rnc'");
    write_deep_file("d.rnc", "\n", "x = text | xsd:byte { maxInclusive = '128' }");
    CHECK(rncv_xml_judge_open_with("deep.rnc", NULL, 0, RNCV_DATATYPES_XML_SCHEMA, judge, &fault) == RNCV_REFUSED && fault.clause == 12);
    CHECK(fault.line == 2 && fault.column == 672 && strcmp(fault.path, "d.rnc") == 0 && begins(fault.message, "S12 "));
    CHECK(strstr(fault.message, "hint") == NULL && fault.missing == NULL);
    judge_row(judge, &rows[0]);
    rncv_xml_fault_free(&fault);
}

/* The sets of datatypes: schemas, hints, and numbers that are no set. */
static void sets(rncv_xml_judge *judge) {
    static const char larger[] = "element a { attribute b { xsd:positiveInteger }, (xsd:Name | empty) }";
    static const char good[] = "<a b='+7'>x:y</a>", bad[] = "<a b='0'/>", text[] = "<a b='1'>-</a>";
    rncv_file file = {(const uint8_t *)"larger.rnc", 10, (const uint8_t *)larger, strlen(larger)};
    rncv_xml_judge own = RNCV_XML_NOTHING, other = RNCV_XML_NOTHING;
    rncv_xml_files files = RNCV_XML_NO_FILES;
    rncv_xml_fault fault = RNCV_XML_NO_FAULT;
    rncv_xml_hint hint = {.line = 7};
    rncv_schema schema = RNCV_NOTHING;
    rncv_fault refused = {0, 0, 0, 0, 0};
    write_file("larger.rnc", larger);
    CHECK(rncv_xml_judge_open("larger.rnc", NULL, 0, &own, &fault) == RNCV_REFUSED && fault.clause == 12 && own.hidden == NULL);
    CHECK(strstr(fault.message, ": hint: xsd:positiveInteger is of the datatypes xml-schema, and not of those of the profile: ") != NULL);
    CHECK(rncv_xml_judge_open_with("larger.rnc", NULL, 0, RNCV_DATATYPES_XML_SCHEMA, &own, &fault) == RNCV_DONE && fault.message == NULL);
    CHECK(says(&own, good, RNCV_XML_VALID, "") && says(&own, bad, RNCV_XML_INVALID, "invalid: attribute b of <a> is no xsd:positiveInteger (\"0\")"));
    CHECK(rncv_compile_with(&file, 1, RNCV_DATATYPES_XML_SCHEMA, &schema, &refused) == RNCV_DONE);
    CHECK(rncv_xml_judge_new_with(&schema, &file, 1, RNCV_DATATYPES_XML_SCHEMA, &other) == RNCV_DONE && says(&other, good, RNCV_XML_VALID, ""));
    CHECK(says(&other, text, RNCV_XML_INVALID, "invalid: the text of <a> is no xsd:Name (\"-\")"));
    /* with another set the verdicts are the same */
    CHECK(rncv_xml_judge_new(&schema, &file, 1, &other) == RNCV_DONE && says(&other, good, RNCV_XML_VALID, ""));
    CHECK(says(&other, text, RNCV_XML_INVALID, "invalid: the text of <a> is no xsd:Name (\"-\")") && says(&other, bad, RNCV_XML_INVALID, "invalid: attribute b of <a> is no xsd:positiveInteger (\"0\")"));
    CHECK(rncv_xml_hint_find(&file, NULL, 1, 12, &hint) == RNCV_DONE && hint.line == 1 && hint.column == 27);
    CHECK(rncv_xml_hint_find_with(&file, NULL, 1, 12, RNCV_DATATYPES_XML_SCHEMA, &hint) == RNCV_DONE && hint.line == 0);
    refused = (rncv_fault){12, -1, -1, -1, -1};
    CHECK(rncv_xml_files_find("larger.rnc", NULL, 0, &files, &fault) == RNCV_DONE);
    CHECK(rncv_xml_files_explain(&files, &refused, &fault) == RNCV_DONE && fault.line == 1 && fault.column == 27);
    CHECK(rncv_xml_files_explain_with(&files, &refused, RNCV_DATATYPES_XML_SCHEMA, &fault) == RNCV_DONE && fault.line == 0);
    CHECK(rncv_xml_files_explain_with(&files, &refused, 2, &fault) == RNCV_MISUSE && rncv_xml_hint_find_with(&file, NULL, 1, 12, 2, &hint) == RNCV_MISUSE);
    CHECK(rncv_xml_judge_open_with("larger.rnc", NULL, 0, 2, &own, &fault) == RNCV_MISUSE && says(&own, good, RNCV_XML_VALID, ""));
    write_file("larger.rnc", "element a { xsd:decimal { totalDigits = '2' } | xsd:decimal { totalDigits = '2' fractionDigits = '3' } }");
    CHECK(rncv_xml_judge_open_with("larger.rnc", NULL, 0, RNCV_DATATYPES_XML_SCHEMA, &own, &fault) == RNCV_REFUSED && fault.line == 1 && fault.column == 81);
    CHECK(strstr(fault.message, ": hint: the fractionDigits '3' is above the totalDigits '2'") != NULL && says(&own, good, RNCV_XML_VALID, ""));
    CHECK(rncv_xml_judge_new_with(&schema, &file, 1, UINT32_MAX, &own) == RNCV_MISUSE && says(&own, good, RNCV_XML_VALID, ""));
    rncv_xml_judge_free(&own);
    rncv_xml_judge_free(&other);
    rncv_xml_files_free(&files);
    rncv_xml_fault_free(&fault);
    rncv_schema_free(&schema);
    judge_row(judge, &rows[0]);
}

/* A file with annotations, and the same with blanks; NULL: it is left as it is. */
struct annotated {
    const char *file;
    const char *blanked;
};

static void annotations(rncv_xml_judge *judge) {
    static const struct annotated cases[] = {
        {"", NULL},
        {"[ xml:b = 'c' ] element x { empty } # >> a:b [ ]\n", NULL},
        {"element x { \"a:b [ ] >> a:b [ ]\" }", NULL},
        {"xml:b [\r\n]\nstart = x", "       \r\n \nstart = x"},
        {"\xEF\xBB\xBF" "xml:b [ ] start = x", "\xEF\xBB\xBF" "          start = x"},
        {"element x { empty >> b [ '\xC3\xA9' ] }", "element x { empty               }"},
        {"xml:b\\x{5B} ] start = x", "              start = x"},
        {"start = x [ a:b = '' ]", "start = x   ]         "},
        {"start = x [ xml:b = '' xml:b = '' ]", "start = x              ]           "},
        {"xml:b [ ] start = x >> y", "          start = x    ]"},
        {"xml:b [ ] start = \\x{41} '", "          start = \\x{41} '"},
        {"a:b [ '\x01' ] start = x", NULL},
        {"a:b [ '\xFF' ] start = x", NULL},
        {"a:b [ '\\x{FFFF}' ] start = x", NULL},
        {"a:b [ '\xEF\xBF\xBF' ] start = x", NULL},
    };
    rncv_xml_fault fault = RNCV_XML_NO_FAULT;
    int32_t changed = 7;
    CHECK(rncv_xml_annotations_blank(NULL, 0, &changed) == RNCV_DONE && changed == 0);
    for (size_t at = 0; at < sizeof cases / sizeof *cases; at++) {
        char text[100];
        const struct annotated *row = &cases[at];
        size_t length = strlen(row->file);
        memcpy(text, row->file, length + 1);
        CHECK(rncv_xml_annotations_blank(text, length, &changed) == RNCV_DONE && changed == (row->blanked != NULL));
        if (strcmp(text, row->blanked == NULL ? row->file : row->blanked) != 0) {
            fprintf(stderr, "%s: became %s\n", row->file, text);
            failures += 1;
        }
        CHECK(rncv_xml_annotations_blank(text, length, &changed) == RNCV_DONE && changed == 0);
    }
    /* columns are those of the file, of a fault, of a hint, and of what a hint mentions */
    write_file("noted.rnc", "c [ '\xC3\xA9' ] start = element x { }");
    CHECK(rncv_xml_judge_open("noted.rnc", NULL, 0, judge, &fault) == RNCV_REFUSED && fault.clause == 6 && fault.line == 1 && fault.column == 31);
    write_file("noted.rnc", "c [ '\xC3\xA9' ] start = element x { attribute y { text }, attribute y { text } }");
    CHECK(rncv_xml_judge_open("noted.rnc", NULL, 0, judge, &fault) == RNCV_REFUSED && fault.clause == 24 && fault.line == 1 && fault.column == 53);
    CHECK(strstr(fault.message, "attribute y is there twice in element x (the other is at 1:31)") != NULL);
    rncv_xml_fault_free(&fault);
    judge_row(judge, &rows[0]);
}

/* Schemas in the XML syntax: faults are told at their elements. */
static void xml_schemas(rncv_xml_judge *judge) {
    static const char begin[] = "<element name='a' xmlns='http://relaxng.org/ns/structure/1.0'>\n";
    char text[512];
    rncv_xml_fault fault = RNCV_XML_NO_FAULT;
    rncv_xml_answer answer;
    snprintf(text, sizeof text, "%s  <txt/></element>", begin);
    write_file("s.rng", text);
    CHECK(rncv_xml_judge_open("s.rng", NULL, 0, judge, &fault) == RNCV_REFUSED && fault.clause == 0 && fault.line == 2 && fault.column == 3);
    CHECK(strcmp(fault.path, "s.rng") == 0 && strcmp(fault.message, "<txt> is no element of RELAX NG") == 0);
    snprintf(text, sizeof text, "%s  <ref name='none'/></element>", begin);
    write_file("s.rng", text);
    CHECK(rncv_xml_judge_open("s.rng", NULL, 0, judge, &fault) == RNCV_REFUSED && fault.clause == 15 && fault.line == 2 && fault.column == 3);
    CHECK(strstr(fault.message, ": hint: none is not defined") != NULL);
    snprintf(text, sizeof text, "%s<externalRef href='lost.rng'/></element>", begin);
    write_file("s.rng", text);
    CHECK(rncv_xml_judge_open("s.rng", NULL, 0, judge, &fault) == RNCV_REFUSED && fault.clause == 1 && strcmp(fault.missing, "lost.rng") == 0);
    CHECK(fault.line == 2 && fault.column == 1);
    snprintf(text, sizeof text, "%s<empty/></element>", begin);
    write_file("s.rng", text);
    CHECK(rncv_xml_judge_open("s.rng", NULL, 0, judge, &fault) == RNCV_DONE);
    CHECK(rncv_xml_judge_bytes(judge, "<a/>", 4, &answer) == RNCV_DONE && answer.verdict == RNCV_XML_VALID);
    CHECK(rncv_xml_judge_bytes(judge, "<b/>", 4, &answer) == RNCV_DONE && answer.verdict == RNCV_XML_INVALID);
    rncv_xml_fault_free(&fault);
}

/* The next of the numbers that are the same in each run. */
static unsigned chance(unsigned *state, unsigned below) {
    *state = *state * 1103515245u + 12345u;
    return (*state >> 16) % below;
}

enum { HANDLES = 4 };

struct room {
    rncv_xml_judge judges[HANDLES];
    rncv_xml_files files[2];
    rncv_xml_fault faults[2];
    rncv_file file;
    rncv_schema schema;
};

/* A call that judges, with arguments that may be wrong. Its answer is right, or there is none. */
static void judge_oddly(rncv_xml_judge *judge, unsigned *state) {
    rncv_xml_answer answer = {.verdict = RNCV_XML_VALID};
    const struct row *row = &rows[chance(state, ROWS)];
    struct text text = {row->document, 1 + chance(state, 9), judge};
    int32_t status = RNCV_MISUSE;
    bool is_null = chance(state, 8) == 0;
    switch (chance(state, 4)) {
    case 0:
        status = rncv_xml_judge_bytes(judge, is_null ? NULL : row->document, strlen(row->document), chance(state, 9) == 0 ? NULL : &answer);
        break;
    case 1:
        status = rncv_xml_judge_by(judge, is_null ? NULL : read_text, &text, &answer);
        break;
    case 2:
        write_file("odd.xml", row->document);
        status = rncv_xml_judge_file(judge, is_null ? NULL : "odd.xml", &answer);
        break;
    default:
        status = judge == NULL || judge->hidden == NULL ? RNCV_MISUSE : rncv_xml_judge_by(judge, read_and_call, &text, &answer);
    }
    CHECK(status == RNCV_MISUSE || is_row(status, &answer, row) || (is_null && answer.verdict == RNCV_XML_MALFORMED));
    text.left = rows[chance(state, ROWS)].document; /* it may be another one */
    size_t count = 0;
    if (chance(state, 2) == 0 && rncv_xml_judge_again(judge, read_text, &text, chance(state, 3), &count) == RNCV_DONE) {
        CHECK(count < 3 && rncv_xml_judge_hint(judge, count, &answer) == RNCV_MISUSE);
        CHECK(count == 0 || (rncv_xml_judge_hint(judge, count - 1, &answer) == RNCV_DONE && begins(answer.message, "hint: ")));
    }
}

/* A call that makes or frees something. */
static void change_oddly(struct room *room, rncv_xml_judge *judge, unsigned *state) {
    static const char *const paths[] = {"s.rnc", "main.rnc", "cut.rnc", "half.rnc", "none.rnc", NULL};
    const char *path = paths[chance(state, 6)];
    rncv_xml_files *files = chance(state, 9) == 0 ? NULL : &room->files[chance(state, 2)];
    rncv_xml_fault *fault = chance(state, 9) == 0 ? NULL : &room->faults[chance(state, 2)];
    rncv_xml_judge *other = chance(state, 9) == 0 ? NULL : &room->judges[chance(state, HANDLES)];
    rncv_fault refused = {(int32_t)chance(state, 30), (int64_t)chance(state, 4) - 1, -1, (int64_t)chance(state, 3) - 1, 1};
    switch (chance(state, 9)) {
    case 0:
        rncv_xml_judge_open(path, NULL, chance(state, 9) == 0, judge, fault);
        break;
    case 1:
        rncv_xml_judge_new(chance(state, 9) == 0 ? NULL : &room->schema, chance(state, 9) == 0 ? NULL : &room->file, 1, judge);
        break;
    case 2:
        rncv_xml_judge_share(judge, other);
        break;
    case 3:
        rncv_xml_judge_free(judge);
        break;
    case 4:
        rncv_xml_files_find(path, NULL, 0, files, fault);
        break;
    case 5:
        rncv_xml_files_explain(files, &refused, fault);
        break;
    case 6:
        rncv_xml_files_free(files);
        break;
    case 7:
        rncv_xml_fault_free(fault);
        break;
    default:
        rncv_document_begin(&room->schema); /* a document in progress, or none */
        if (chance(state, 2) == 0) {
            rncv_verdict verdict;
            rncv_document_end(&room->schema, &verdict);
        }
    }
}

/* Many calls in odd orders, with handles that hold nothing, and with NULL. */
static void odd_calls(void) {
    struct room room = {.file = {(const uint8_t *)"s.rnc", 5, (const uint8_t *)schema_text, strlen(schema_text)}, .schema = RNCV_NOTHING};
    unsigned state = 1;
    rncv_fault refused;
    CHECK(rncv_compile(&room.file, 1, &room.schema, &refused) == RNCV_DONE);
    for (int call = 0; call < CALLS && failures < 10; call++) {
        rncv_xml_judge *judge = chance(&state, 20) == 0 ? NULL : &room.judges[chance(&state, HANDLES)];
        if (chance(&state, 2) == 0) {
            judge_oddly(judge, &state);
        } else {
            change_oddly(&room, judge, &state);
        }
    }
    for (size_t at = 0; at < HANDLES; at++) {
        rncv_xml_judge_free(&room.judges[at]);
    }
    for (size_t at = 0; at < 2; at++) {
        rncv_xml_files_free(&room.files[at]);
        rncv_xml_fault_free(&room.faults[at]);
    }
    rncv_schema_free(&room.schema);
}

static void *work(void *context) {
    rncv_xml_judge *judge = context;
    size_t wrong = 0;
    for (size_t at = 0; at < TIMES; at++) {
        const struct row *row = &rows[at % ROWS];
        rncv_xml_judge other = RNCV_XML_NOTHING;
        rncv_xml_answer answer;
        int32_t status = rncv_xml_judge_bytes(judge, row->document, strlen(row->document), &answer);
        wrong += !is_row(status, &answer, row);
        wrong += rncv_xml_judge_share(judge, &other) != RNCV_DONE;
        status = rncv_xml_judge_bytes(&other, row->document, strlen(row->document), &answer);
        wrong += !is_row(status, &answer, row);
        rncv_xml_judge_free(&other);
    }
    rncv_xml_judge_free(judge);
    return wrong == 0 ? NULL : context;
}

/* Several threads, each with a judge by the same schema, which the first judge does not outlive. */
static void threads(void) {
    rncv_xml_judge first = RNCV_XML_NOTHING;
    rncv_xml_judge judges[THREADS] = {RNCV_XML_NOTHING, RNCV_XML_NOTHING, RNCV_XML_NOTHING, RNCV_XML_NOTHING};
    pthread_t begun[THREADS];
    CHECK(rncv_xml_judge_open("s.rnc", NULL, 0, &first, NULL) == RNCV_DONE);
    for (size_t at = 0; at < THREADS; at++) {
        CHECK(rncv_xml_judge_share(&first, &judges[at]) == RNCV_DONE);
    }
    for (size_t at = 0; at < THREADS; at++) {
        CHECK(pthread_create(&begun[at], NULL, work, &judges[at]) == 0);
    }
    rncv_xml_judge_free(&first);
    for (size_t at = 0; at < THREADS; at++) {
        void *result;
        CHECK(pthread_join(begun[at], &result) == 0 && result == NULL);
    }
}

int main(int count, char **words) {
    rncv_xml_judge judge = RNCV_XML_NOTHING;
    rncv_xml_fault fault = RNCV_XML_NO_FAULT;
    if (count != 2 || chdir(words[1]) != 0) {
        fprintf(stderr, "usage: library_test FOLDER\n");
        return EXIT_FAILURE;
    }
    write_file("s.rnc", schema_text);
    CHECK(rncv_xml_judge_open("s.rnc", NULL, 0, &judge, &fault) == RNCV_DONE && fault.message == NULL);
    if (judge.hidden == NULL) {
        return EXIT_FAILURE;
    }
    answers(&judge);
    calls_meanwhile(&judge);
    misuse(&judge);
    files_by_hand();
    refused_schemas(&judge);
    hints(&judge);
    places_of_datatypes(&judge);
    ids(&judge);
    sets(&judge);
    annotations(&judge);
    xml_schemas(&judge);
    odd_calls();
    rncv_xml_judge_free(&judge);
    rncv_xml_fault_free(&fault);
    threads();
    printf("library_test: %s\n", failures == 0 ? "ok" : "FAILED");
    return failures == 0 ? EXIT_SUCCESS : EXIT_FAILURE;
}
