/* The library that judges XML, with each of its growths of memory refused in turn: no call crashes or loses memory, no document is valid by that, and the
 * next document is judged as before. The linker wraps malloc, calloc and realloc. The argument is an empty folder, in which it works. */
#include <rncv_xml.h>

#include <stdbool.h>
#include <stdio.h>
#include <stdlib.h>
#include <string.h>
#include <unistd.h>

/* After this many growths one is refused, or all are; -1: none is. */
static long left = -1;
static bool refuses_all = false;

void *__real_malloc(size_t size);
void *__real_calloc(size_t count, size_t size);
void *__real_realloc(void *old, size_t size);
void *__wrap_malloc(size_t size);
void *__wrap_calloc(size_t count, size_t size);
void *__wrap_realloc(void *old, size_t size);

static bool is_refused(void) {
    if (left > 0) {
        left--;
        return false;
    }
    bool is = left == 0;
    if (is && !refuses_all) {
        left = -1;
    }
    return is;
}

void *__wrap_malloc(size_t size) {
    return is_refused() ? NULL : __real_malloc(size);
}

void *__wrap_calloc(size_t count, size_t size) {
    return is_refused() ? NULL : __real_calloc(count, size);
}

void *__wrap_realloc(void *old, size_t size) {
    return is_refused() ? NULL : __real_realloc(old, size);
}

static int failures = 0;

static void check(bool fact, const char *what, long at) {
    if (!fact) {
        fprintf(stderr, "%s: not so when growth %ld is refused%s\n", what, at, refuses_all ? ", and all after it" : "");
        failures += 1;
    }
}

static void write_file(const char *name, const char *text) {
    FILE *file = fopen(name, "wb");
    bool is_written = file != NULL && fputs(text, file) >= 0;
    check(file != NULL && fclose(file) == 0 && is_written, "a file is written", 0);
}

/* A document with a tag that is so long that attributes are left out of it (write_wide). */
static char wide[8000];

static const char *const documents[] = {
    "<a x='1'>text <b/> text</a>",
    "<a x='2'><b/></a>",
    "<a x='1'><c/></a>",
    "<!DOCTYPE a SYSTEM 'd' [<!ENTITY e 'f'> <!ATTLIST a y CDATA '1'>]><a x='1'>&e;</a>",
    "<a><b></a>",
    "<a x='1' i='p' xmlns:n='u'><b r='q'/><b r='p'/></a>",
    "<a x='1' i='-'/>",
    "<!DOCTYPE a [<!ENTITY e '2'><!ENTITY t '&#38;#9;'>]><a x='1&e;' xmlns:n='u&t;'>&e;<b/>3</a>",
    "<a x='1' l='1 3'/>",
    "<!DOCTYPE a [<!ENTITY % p '<!ENTITY e \"<b/>a text of more than sixty bytes, with a carriage return&#38;#13;.\"><!-- a comment -->'>%p;"
    "<!ENTITY f '&e;'>]><a x='1'>&f;text&e;</a>",
    wide,
    "<a x='2' xmlns:n='u'><b s='1'>text</b><b l='1 3'/></a>",
};

enum { DOCUMENTS = sizeof documents / sizeof *documents, HINTED = DOCUMENTS - 1, MOST = 100000 };

static void write_wide(void) {
    static const char begin[] = "<!DOCTYPE a [<!ENTITY e 'text'>]><a x='1' p='' q='' r='' s='' ";
    static const char end[] = " n:c='' xmlns:n='u' d='&e;&#65;' n:e='x' f=''>&e;</a>";
    memset(wide, ' ', sizeof wide - 1);
    memcpy(wide, begin, strlen(begin));
    memcpy(wide + sizeof wide - sizeof end, end, sizeof end);
}

/* What is kept of an answer. */
struct kept {
    int32_t verdict;
    char message[200];
    char token[8];
};

static int32_t judge(rncv_xml_judge *judge, size_t at, struct kept *kept) {
    rncv_xml_answer answer;
    int32_t status = rncv_xml_judge_bytes(judge, documents[at], strlen(documents[at]), &answer);
    kept->verdict = answer.verdict;
    snprintf(kept->message, sizeof kept->message, "%s", answer.message);
    snprintf(kept->token, sizeof kept->token, "%s", answer.token);
    return status;
}

/* Whether a token that is told is told in whole. */
static bool is_whole(const char *token, const char *wanted) {
    return token[0] == '\0' || strcmp(token, wanted) == 0;
}

/* Judges a document with growths refused, and then without. False: nothing was refused. */
static bool refuse_in_document(rncv_xml_judge *judged, size_t at, long after, const struct kept *wanted) {
    struct kept kept;
    left = after;
    int32_t status = judge(judged, at, &kept);
    bool was_refused = left < 0 || (refuses_all && left == 0);
    left = -1;
    check(status == RNCV_MEMORY ? kept.verdict == RNCV_XML_FAILED : status == RNCV_DONE && kept.verdict == wanted->verdict, documents[at], after);
    check(is_whole(kept.token, wanted->token), "a token", after);
    status = judge(judged, at, &kept);
    bool is_same = kept.verdict == wanted->verdict && strcmp(kept.message, wanted->message) == 0 && strcmp(kept.token, wanted->token) == 0;
    check(status == RNCV_DONE && is_same, "the next document", after);
    return was_refused;
}

/* Opens, shares and frees a judge with growths refused. False: nothing was refused. */
static bool refuse_in_opening(long after) {
    rncv_xml_judge first = RNCV_XML_NOTHING;
    rncv_xml_judge other = RNCV_XML_NOTHING;
    rncv_xml_fault fault = RNCV_XML_NO_FAULT;
    left = after;
    int32_t status = rncv_xml_judge_open("s.rnc", NULL, 0, &first, &fault);
    int32_t shared = rncv_xml_judge_share(&first, &other);
    int32_t refused = rncv_xml_judge_open("lost.rnc", NULL, 0, &first, &fault);
    int32_t hinted = rncv_xml_judge_open("hinted.rnc", NULL, 0, &first, &fault);
    int32_t named = rncv_xml_judge_open("named.rnc", NULL, 0, &first, &fault);
    bool was_refused = left < 0 || (refuses_all && left == 0);
    left = -1;
    check(status == RNCV_DONE || status == RNCV_MEMORY || status == RNCV_XML_UNREAD, "open", after);
    check((status == RNCV_DONE) == (first.hidden != NULL), "what open leaves", after);
    check(shared == RNCV_DONE ? other.hidden != NULL : other.hidden == NULL, "what share leaves", after);
    check(refused == RNCV_REFUSED || refused == RNCV_MEMORY || refused == RNCV_XML_UNREAD, "a refusal", after);
    check(named == RNCV_REFUSED || named == RNCV_MEMORY || named == RNCV_XML_UNREAD, "a refusal of a name in an annotation", after);
    check(hinted == RNCV_REFUSED || hinted == RNCV_MEMORY || hinted == RNCV_XML_UNREAD, "a refusal with a hint", after);
    rncv_xml_fault_free(&fault);
    rncv_xml_judge_free(&first);
    rncv_xml_judge_free(&other);
    return was_refused;
}

/* Writes blanks over annotations with growths refused: over all that are to be blank, or over none. False: nothing was refused. */
static bool refuse_in_annotations(const char *text, const char *blanked, long after) {
    char bytes[400];
    int32_t changed = 7;
    snprintf(bytes, sizeof bytes, "%s", text);
    left = after;
    int32_t status = rncv_xml_annotations_blank(bytes, strlen(bytes), &changed);
    bool was_refused = left < 0 || (refuses_all && left == 0);
    left = -1;
    check(status == RNCV_DONE || status == RNCV_MEMORY, "blanks", after);
    check(strcmp(bytes, status == RNCV_DONE ? blanked : text) == 0, status == RNCV_DONE ? "what is blank" : "that nothing is blank", after);
    return was_refused;
}

/* A document that is read once more. */
struct again {
    const char *left;
};

static void read_again(rncv_xml_piece *piece) {
    struct again *again = piece->context;
    size_t length = strlen(again->left);
    piece->length = length < piece->size ? length : piece->size;
    memcpy(piece->bytes, again->left, piece->length);
    again->left += piece->length;
}

/* Looks for hints with growths refused: what is told is told in whole, and what follows is judged as before. False: nothing was refused. Each time there is a
 * new judge, since what was not made once is not made again. */
static bool refuse_in_hints(size_t at, long after, size_t wanted) {
    rncv_xml_judge judged = RNCV_XML_NOTHING;
    struct again again = {documents[at]};
    struct kept kept;
    rncv_xml_answer hint;
    size_t count = MOST;
    check(rncv_xml_judge_open("s.rnc", NULL, 0, &judged, NULL) == RNCV_DONE && judge(&judged, at, &kept) == RNCV_DONE, "judged for hints", after);
    left = after;
    int32_t status = rncv_xml_judge_again(&judged, read_again, &again, 9, &count);
    bool was_refused = left < 0 || (refuses_all && left == 0);
    left = -1;
    check(status == RNCV_DONE && (was_refused ? count <= wanted : count == wanted), "hints", after);
    for (size_t index = 0; index < count; index++) {
        check(rncv_xml_judge_hint(&judged, index, &hint) == RNCV_DONE && hint.line > 0 && strncmp(hint.message, "hint: ", 6) == 0, "a hint", after);
        check(is_whole(hint.token, "3"), "a token of a hint", after);
    }
    check(judge(&judged, 0, &kept) == RNCV_DONE && kept.verdict == RNCV_XML_VALID, "the document after hints", after);
    rncv_xml_judge_free(&judged);
    return was_refused;
}

static void refuse_hints(void) {
    long after = 0;
    while (after < MOST && refuse_in_hints(HINTED, after, 3)) {
        after++;
    }
    check(after > 20 && after < MOST, "some growths of hints are refused", after);
}

static void refuse_annotations(void) {
    static const char *const texts[] = {
        "namespace a = 'a' namespace b = 'b' a:x [ a:x = '\\x{41}' b:x = '' ] start = x a:x [ b:x = '' a:x = '' ]",
        "namespace a = 'a' namespace b = 'a' b:y [ ] [ a:x = '' a:y = '' b:x = '' a:y = '' ] start = x",
        "namespace a = '' start = x y [ x = '' a:x = '' ]",
        "[ a:x = '' ] start = x",
    };
    for (size_t at = 0; at < sizeof texts / sizeof *texts; at++) {
        char blanked[400];
        int32_t changed = 0;
        snprintf(blanked, sizeof blanked, "%s", texts[at]);
        check(rncv_xml_annotations_blank(blanked, strlen(blanked), &changed) == RNCV_DONE && changed == 1, "blanks", -1);
        long after = 0;
        while (after < MOST && refuse_in_annotations(texts[at], blanked, after)) {
            after++;
        }
        check(after > 2 && after < MOST, "some growths of blanks are refused", after);
    }
}

static void refuse_each(rncv_xml_judge *judged) {
    long after = 0;
    refuse_annotations();
    refuse_hints();
    while (after < MOST && refuse_in_opening(after)) {
        after++;
    }
    check(after > 20 && after < MOST, "some growths of opening are refused", after);
    for (size_t at = 0; at < DOCUMENTS; at++) {
        struct kept wanted;
        judge(judged, at, &wanted);
        after = 0;
        while (after < MOST && refuse_in_document(judged, at, after, &wanted)) {
            after++;
        }
        check(after > 5 && after < MOST, "some growths of a document are refused", after);
    }
}

int main(int count, char **words) {
    rncv_xml_judge judged = RNCV_XML_NOTHING;
    if (count != 2 || chdir(words[1]) != 0) {
        fprintf(stderr, "usage: library_memory_test FOLDER\n");
        return EXIT_FAILURE;
    }
    write_wide();
    write_file("s.rnc", "include 'part.rnc' start = a\n");
    write_file("part.rnc", "a = element a { attribute x { '1' }, l?, attribute i { xsd:NCName { minLength = '000000001' } }?, (text | b)* }\n"
                           "b = element b { l?, attribute r { xsd:NCName { minLength = '00000001' } }? }\nl = attribute l { list { '1', '2' } }\n"
                           "# rncv-profile: 2 ID-types marked, see s.profile.txt\n");
    write_file("lost.rnc", "include 'none.rnc'\n");
    write_file("named.rnc", "namespace a = 'a' [ a:x = '' a:x = '' ] element a { empty }\n");
    write_file("hinted.rnc", "element a { attribute b { text }, attribute b { text } }\n");
    check(rncv_xml_judge_open("s.rnc", NULL, 0, &judged, NULL) == RNCV_DONE, "open", -1);
    refuse_each(&judged);
    refuses_all = true;
    refuse_each(&judged);
    rncv_xml_judge_free(&judged);
    printf("library_memory_test: %s\n", failures == 0 ? "ok" : "FAILED");
    return failures == 0 ? EXIT_SUCCESS : EXIT_FAILURE;
}
