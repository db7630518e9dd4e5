/* What a schema file mentions, and which clause it breaks by itself. */
#include "testing.h"

#define NO_FAULT {7, 7, 7, 7, 7}

static int32_t ask(const char *text, size_t size, uint8_t *names, size_t *needed, rncv_fault *fault) {
    return rncv_mentions((const uint8_t *)text, strlen(text), names, size, needed, fault);
}

static int is_untouched(const rncv_fault *fault) {
    return fault->clause == 7 && fault->file == 7 && fault->offset == 7 && fault->line == 7 && fault->column == 7;
}

/* A file mentions these names, each of which has a `/` after it here in the place of the zero. */
static void check_names(const char *text, const char *wanted) {
    uint8_t names[256];
    char shown[256];
    rncv_fault fault = NO_FAULT;
    size_t needed = 99;
    size_t length = strlen(wanted);
    memset(names, '.', sizeof names);
    CHECK(ask(text, sizeof names, names, &needed, &fault) == RNCV_DONE && needed == length);
    for (size_t at = 0; at < length; at++) {
        shown[at] = names[at] == 0 ? '/' : (char)names[at];
    }
    CHECK(memcmp(shown, wanted, length) == 0 && names[length] == '.');
    CHECK(length <= strlen(text) && is_untouched(&fault));
    /* exactly as much room as they need, and too little */
    needed = 99;
    CHECK(ask(text, length, length == 0 ? NULL : names, &needed, &fault) == RNCV_DONE && needed == length);
    if (length > 0) {
        memset(names, '.', sizeof names);
        needed = 99;
        CHECK(ask(text, length - 1, names, &needed, &fault) == RNCV_SPACE && needed == length && names[0] == '.');
        needed = 99;
        CHECK(ask(text, 0, NULL, &needed, &fault) == RNCV_SPACE && needed == length && is_untouched(&fault));
    }
}

static void names_what_is_mentioned(void) {
    check_names("", "");
    check_names("element a { text }", "");
    check_names("include \"b.rnc\"", "b.rnc/");
    check_names("external \"\"", "/");
    check_names("element a { external \"b\" | (external 'c', external \"\"\"d\"\"\") }", "b/c/d/");
    /* those in the braces come after the include, and a name that is mentioned twice is there twice */
    check_names("x = external \"1\" include \"2\" { start = external \"3\" div { x = external \"2\" } } div { include '1' }", "1/2/3/2/1/");
    check_names("grammar { include \"b\" start = grammar { start = external \"c\" } }", "b/c/");
    check_names("element a { xsd:token - (external \"b\") }", "b/");
    /* joined segments, escapes, characters of several bytes, a line feed in a name */
    check_names("include \"a\" ~ '\"' ~ \"\"\"b\n\"\"\" # \"c\"\n ~ 'd'", "a\"b\nd/");
    check_names("\\x{69}nclude \"\\x{e9}\\x{10000}\xC3\xA9\"", "\xC3\xA9\xF0\x90\x80\x80\xC3\xA9/");
    /* the namespace that it inherits is no part of the name */
    check_names("default namespace p = \"u\" include \"b.rnc\" inherit = p", "b.rnc/");
}

/* No mentions: names, comments, texts, parameters, annotations. */
static void names_nothing_else(void) {
    check_names("# include \"b\"\n\\include = element include { \\external } \\external = attribute external { \"include 'b'\" }", "");
    check_names("namespace a = \"u\" [ a:include [ \"b\" ] a:x = \"external 'c'\" ] element e { xsd:string { pattern = \"include\" } }", "");
    check_names("namespace a = \"u\" ## external \"b\"\nelement a:include { external \"c\" }", "c/");
}

/* A file breaks this clause by itself. That is what rncv_compile says of it too. */
static void check_refused(const char *text, int32_t clause) {
    rncv_file file = file_of("s.rnc", text);
    rncv_schema schema = RNCV_NOTHING;
    rncv_fault fault = NO_FAULT;
    rncv_fault other = NO_FAULT;
    uint8_t names[4] = {'.', '.', '.', '.'};
    size_t needed = 99;
    CHECK(ask(text, sizeof names, names, &needed, &fault) == RNCV_REFUSED && fault.clause == clause);
    CHECK(needed == 99 && memcmp(names, "....", 4) == 0);
    CHECK(rncv_compile(&file, 1, &schema, &other) == RNCV_REFUSED && other.clause == clause);
    CHECK(fault.file == 0 && other.file == 0 && fault.offset == other.offset && fault.line == other.line && fault.column == other.column);
    CHECK(fault.offset >= 0 && fault.line > 0 && fault.column > 0);
}

static void refuses(void) {
    char deep[400];
    check_refused("include \"b\" \xFF", 3);
    check_refused("include \"b\" \\x{0}", 4);
    check_refused("include \"a\\x{0}b\"", 4);
    check_refused("include \"b\x01\"", 4);
    check_refused("include \"b\" %", 5);
    check_refused("include \"b\"\nx =", 6);
    check_refused("include", 6);
    check_refused("include \"b\" include \"c", 5);
    check_refused("include \"b\" x = element p:x { empty }", 8);
    memset(deep, '(', 200);
    strcpy(deep + 200, " external \"b\" ");
    check_refused(deep, 7);
}

/* What rncv_compile refuses of all files together is no matter here. */
static void judges_no_files(void) {
    check_names("include \"s.rnc\"", "s.rnc/");
    check_names("start = x", "");
    check_names("element a { xsd:none, attribute a { text }, attribute a { text } }", "");
}

/* A file is read by itself: nothing of the one before is left. */
static void keeps_nothing(void) {
    uint8_t names[16];
    rncv_fault fault = NO_FAULT;
    size_t needed = 99;
    memset(names, '.', sizeof names);
    CHECK(ask("include \"first.rnc\"", sizeof names, names, &needed, &fault) == RNCV_DONE && needed == 10);
    CHECK(ask("include \"b\"", sizeof names, names, &needed, &fault) == RNCV_DONE && needed == 2);
    CHECK(memcmp(names, "b\0rst.rnc\0......", 16) == 0);
    CHECK(ask("x = ", sizeof names, names, &needed, &fault) == RNCV_REFUSED && needed == 2 && fault.clause == 6);
    CHECK(ask("empty", sizeof names, names, &needed, &fault) == RNCV_DONE && needed == 0 && fault.clause == 6);
    CHECK(memcmp(names, "b\0rst.rnc\0......", 16) == 0);
}

/* A file may have no bytes at all, and more than rncv_compile takes. */
static void takes_any_size(void) {
    rncv_fault fault = NO_FAULT;
    size_t needed = 99;
    CHECK(rncv_mentions(NULL, 0, NULL, 0, &needed, &fault) == RNCV_DONE && needed == 0 && is_untouched(&fault));

    const char *one = "include \"part.rnc\"\n";
    size_t count = is_quick() ? 2000 : 60000;
    char *text = malloc(count * strlen(one) + 1);
    uint8_t *names = malloc(count * 9);
    if (text == NULL || names == NULL) {
        CHECK(!"memory for the test");
    } else {
        for (size_t at = 0; at < count; at++) {
            strcpy(text + at * strlen(one), one);
        }
        CHECK(ask(text, count * 9, names, &needed, &fault) == RNCV_DONE && needed == count * 9);
        CHECK(memcmp(names, "part.rnc", 9) == 0 && memcmp(names + (count - 1) * 9, "part.rnc", 9) == 0);
    }
    free(text);
    free(names);
}

int main(void) {
    names_what_is_mentioned();
    names_nothing_else();
    refuses();
    judges_no_files();
    keeps_nothing();
    takes_any_size();
    return outcome("mentions");
}
