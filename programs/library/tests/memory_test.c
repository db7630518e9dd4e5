/* Refuses each allocation in turn, and all from each one on. It is linked with -Wl,--wrap=malloc,--wrap=realloc, so that the two functions below are
 * the library's malloc and realloc. */
#include "testing.h"

void *__real_malloc(size_t size);
void *__real_realloc(void *block, size_t size);
void *__wrap_malloc(size_t size);
void *__wrap_realloc(void *block, size_t size);

/* Growths are counted from 0; those from `first` to `last` are refused. */
static long growth = 0;
static long first = -1;
static long last = -1;

static int is_granted(void) {
    long number = growth++;
    return number < first || last < number;
}

void *__wrap_malloc(size_t size) {
    return is_granted() ? __real_malloc(size) : NULL;
}

void *__wrap_realloc(void *block, size_t size) {
    return is_granted() ? __real_realloc(block, size) : NULL;
}

#define SCHEMA "start = element a { attribute b { xsd:integer { minInclusive = \"1\" } }?, (element c { text } | d)* }\n" \
               "d = element d { list { \"x\", xsd:token* } }\n"
#define DOCUMENT "(a\nAb 12\n(c\n-one\n)c\n(d\n-x y\n)d\n)a\n"

/* The larger set has this too. */
#define LARGER "start = element a { attribute b { xsd:byte { minInclusive = \"1\" maxExclusive = \"99\" } }?, (element c { xsd:NMTOKENS } | d)* }\n" \
               "d = element d { list { \"x\", xsd:language* } }\n"

/* One run, by the schema and with the datatypes of a set: returns 1 if it reached its end, 0 if a call returned RNCV_MEMORY. Every other answer is right. */
static int run_once_with(const char *text, uint32_t datatypes) {
    rncv_schema schema = RNCV_NOTHING;
    rncv_schema other = RNCV_NOTHING;
    rncv_verdict verdict = {7, 7, 7};
    uint8_t buffer[1024];
    size_t length = 99;
    uint64_t line = 99;
    int32_t status;

    status = compile_with(text, datatypes, &schema);
    CHECK(status == RNCV_DONE || schema.hidden == NULL);
    if (status == RNCV_DONE) {
        status = rncv_schema_share(&schema, &other);
        CHECK(status == RNCV_DONE || other.hidden == NULL);
    }
    if (status == RNCV_DONE) {
        status = rncv_simple(&other, buffer, sizeof buffer, &length);
        CHECK(status == RNCV_DONE || length == 99);
    }
    for (int turn = 0; turn < 2 && status == RNCV_DONE; turn++) {
        status = rncv_document_begin(&other);
        CHECK(status == RNCV_DONE || feed(&other, "(a\n") == RNCV_MISUSE);
        if (status == RNCV_DONE) {
            status = feed(&other, DOCUMENT);
            CHECK(rncv_document_invalid_since(&other, &line) == RNCV_DONE && line == 0);
            int32_t ended = rncv_document_end(&other, &verdict);
            CHECK(status == RNCV_DONE || ended == status);
            CHECK(ended != RNCV_DONE || verdict.kind == RNCV_VALID);
            CHECK(ended == RNCV_DONE || verdict.kind == 7 || turn > 0);
            status = ended;
        }
    }
    CHECK(status == RNCV_DONE || status == RNCV_MEMORY);
    rncv_schema_free(&other);
    rncv_schema_free(&schema);
    return status == RNCV_DONE;
}

static int run_once(void) {
    return run_once_with(SCHEMA, RNCV_DATATYPES_PROFILE);
}

static int run_once_with_all_types(void) {
    return run_once_with(LARGER, RNCV_DATATYPES_XML_SCHEMA);
}

/* The start of an element with this attribute, in a namespace of its own. */
static int32_t start(rncv_schema *schema, uint64_t place, const char *local, const rncv_attribute *attributes, size_t count) {
    return rncv_events_start(schema, place, (const uint8_t *)"u", 1, (const uint8_t *)local, strlen(local), attributes, count);
}

/* Tells a document as events. Returns the status of the last call; each call after one that runs out of memory returns RNCV_MEMORY too. */
static int32_t tell(rncv_schema *schema) {
    static const uint8_t text[] = "a text";
    rncv_attribute attributes[20];
    char names[20][16];
    for (int i = 0; i < 20; i++) {
        snprintf(names[i], sizeof names[i], "b%d", i);
        attributes[i] = (rncv_attribute){text, 1, (const uint8_t *)names[i], strlen(names[i]), text, 6};
    }
    int32_t status = start(schema, 1, "a", attributes, 20);
    for (int i = 0; i < 3; i++) {
        CHECK(status == RNCV_DONE || status == RNCV_MEMORY);
        int32_t next = start(schema, 2, "c", attributes, 2);
        CHECK(status == RNCV_DONE || next == status);
        status = rncv_events_text(schema, text, 6);
        CHECK(next == RNCV_DONE || next == status);
        next = rncv_events_end(schema, 3);
        CHECK(status == RNCV_DONE || next == status);
        status = next;
    }
    int32_t ended = rncv_events_end(schema, 4);
    CHECK(status == RNCV_DONE || ended == status);
    return ended;
}

/* The same as run_once, for a document of events. */
static int events_once(void) {
    rncv_schema schema = RNCV_NOTHING;
    rncv_verdict verdict = {7, 7, 7};
    uint64_t place = 99;
    int32_t status = compile("element * { attribute * { text }*, (element * { attribute * { text }*, text })* }", &schema);
    for (int turn = 0; turn < 2 && status == RNCV_DONE; turn++) {
        status = rncv_events_begin(&schema);
        CHECK(status == RNCV_DONE || rncv_events_end(&schema, 1) == RNCV_MISUSE);
        if (status == RNCV_DONE) {
            status = tell(&schema);
            CHECK(rncv_events_invalid_since(&schema, &place) == RNCV_DONE && place == 0);
            int32_t ended = rncv_events_finish(&schema, &verdict);
            CHECK(ended == status && (ended != RNCV_DONE || verdict.kind == RNCV_VALID) && (ended == RNCV_DONE || verdict.kind == 7 || turn > 0));
        }
    }
    CHECK(status == RNCV_DONE || status == RNCV_MEMORY);
    rncv_schema_free(&schema);
    return status == RNCV_DONE;
}

/* Asks for the name of a file that is not there: returns 1 if it is written, 0 if the call ran out of memory. */
static int name_once(void) {
    rncv_file file = file_of("s.rnc", "include \"parts.rnc\"");
    uint8_t buffer[16] = {'.'};
    size_t length = 99;
    int32_t status = rncv_refused_name(&file, 1, buffer, sizeof buffer, &length);
    CHECK(status == RNCV_MEMORY ? length == 99 && buffer[0] == '.' : status == RNCV_DONE);
    CHECK(status == RNCV_MEMORY || (length == 9 && memcmp(buffer, "parts.rnc", 9) == 0));
    return status == RNCV_DONE;
}

/* Asks for what a file mentions: returns 1 if it is written, 0 if the call ran out of memory. */
static int mentions_once(void) {
    const char *text = "namespace p = \"u\" include \"parts.rnc\" { x = element p:x { external 'a' ~ 'b.rnc' } }";
    rncv_fault fault = {7, 7, 7, 7, 7};
    uint8_t buffer[32] = {'.'};
    size_t length = 99;
    int32_t status = rncv_mentions((const uint8_t *)text, strlen(text), buffer, sizeof buffer, &length, &fault);
    CHECK(status == RNCV_MEMORY ? length == 99 && buffer[0] == '.' : status == RNCV_DONE);
    CHECK(status == RNCV_MEMORY || (length == 17 && memcmp(buffer, "parts.rnc\0ab.rnc", 17) == 0));
    CHECK(fault.clause == 7 && fault.file == 7 && fault.offset == 7 && fault.line == 7 && fault.column == 7);
    return status == RNCV_DONE;
}

/* The same for a file that breaks a clause. */
static int refusal_once(void) {
    const char *text = "include \"b.rnc\" { x = element p:x { empty } }";
    rncv_fault fault = {7, 7, 7, 7, 7};
    size_t length = 99;
    int32_t status = rncv_mentions((const uint8_t *)text, strlen(text), NULL, 0, &length, &fault);
    CHECK(length == 99 && (status == RNCV_MEMORY ? fault.clause == 7 && fault.column == 7 : status == RNCV_REFUSED));
    CHECK(status == RNCV_MEMORY || (fault.clause == 8 && fault.file == 0 && fault.offset == 30 && fault.line == 1 && fault.column == 31));
    return status == RNCV_REFUSED;
}

#define WORD "xsd:NCName { minLength = \"1\" maxLength = \"9\" }"
#define WORD_LINE "datatype http://www.w3.org/2001/XMLSchema-datatypes NCName minLength 1 maxLength 9\n"

/* Asks what may come next in a document of events: returns 1 if it is written, 0 if a call ran out of memory. The document goes on in either case. */
static int expected_once(void) {
    static const char wanted[] = "text\nvalue  token x\\sy\n" WORD_LINE;
    rncv_schema schema = RNCV_NOTHING;
    uint8_t buffer[128] = {'.'};
    size_t length = 99;
    int32_t status = compile("default namespace = \"u\" element a { \"x y\" | " WORD " | attribute b { text } }", &schema);
    if (status == RNCV_DONE) {
        status = rncv_events_begin(&schema);
    }
    if (status == RNCV_DONE) {
        status = start(&schema, 1, "a", NULL, 0);
    }
    if (status == RNCV_DONE) {
        status = rncv_expected(&schema, buffer, sizeof buffer, &length);
        CHECK(status == RNCV_MEMORY ? length == 99 && buffer[0] == '.' : status == RNCV_DONE);
        CHECK(status == RNCV_MEMORY || (length == sizeof wanted - 1 && memcmp(buffer, wanted, length) == 0));
        first = last = -1;
        CHECK(rncv_events_text(&schema, (const uint8_t *)"x y", 3) == RNCV_DONE && rncv_events_end(&schema, 2) == RNCV_DONE);
    }
    rncv_schema_free(&schema);
    return status == RNCV_DONE;
}

/* Asks what a tag may have: returns 1 if it is written, 0 if a call ran out of memory. The document goes on in either case. */
static int expected_tag_once(void) {
    static const char wanted[] = "attribute * except ( {}b )\nattribute {}b\nrequired {}b\n";
    rncv_schema schema = RNCV_NOTHING;
    uint8_t buffer[128] = {'.'};
    size_t length = 99;
    int32_t status = compile("default namespace = \"u\" element a { attribute b { text }, attribute * - b { text }* }", &schema);
    if (status == RNCV_DONE) {
        status = rncv_events_begin(&schema);
    }
    if (status == RNCV_DONE) {
        status = rncv_expected_tag(&schema, (const uint8_t *)"u", 1, (const uint8_t *)"a", 1, buffer, sizeof buffer, &length);
        CHECK(status == RNCV_MEMORY ? length == 99 && buffer[0] == '.' : status == RNCV_DONE);
        CHECK(status == RNCV_MEMORY || (length == sizeof wanted - 1 && memcmp(buffer, wanted, length) == 0));
    }
    rncv_schema_free(&schema);
    return status == RNCV_DONE;
}

/* Asks why a start and an end leave nothing, and what may come in place of a text: returns 1 if all is told, 0 if a call ran out of memory. */
static int reasons_once(void) {
    static const char wanted[] = "text\nvalue  token x\n" WORD_LINE;
    rncv_attribute given[2] = {{(const uint8_t *)"u", 1, (const uint8_t *)"c", 1, (const uint8_t *)"", 0},
                               {(const uint8_t *)"", 0, (const uint8_t *)"b", 1, (const uint8_t *)"2", 1}};
    rncv_schema schema = RNCV_NOTHING;
    rncv_reason reason = {99, 99};
    uint8_t buffer[128] = {'.'};
    size_t length = 99;
    int32_t status = compile("default namespace = \"u\" element a { attribute b { \"1\" }, attribute * - b { text }*, (\"x\" | " WORD ") }", &schema);
    if (status == RNCV_DONE) {
        status = rncv_events_begin(&schema);
    }
    if (status == RNCV_DONE) {
        status = rncv_events_start_reason(&schema, (const uint8_t *)"u", 1, (const uint8_t *)"a", 1, given, 2, &reason);
        CHECK(status == RNCV_MEMORY ? reason.kind == 99 && reason.attribute == 99 : status == RNCV_DONE);
        CHECK(status == RNCV_MEMORY || (reason.kind == RNCV_REASON_VALUE && reason.attribute == 1));
    }
    given[1].value = (const uint8_t *)"1";
    if (status == RNCV_DONE) {
        status = start(&schema, 1, "a", given, 2);
    }
    if (status == RNCV_DONE) {
        status = rncv_events_text(&schema, (const uint8_t *)"1 2", 3);
    }
    if (status == RNCV_DONE) {
        status = rncv_events_end(&schema, 2);
    }
    if (status == RNCV_DONE) {
        status = rncv_events_end_reason(&schema, &reason);
        CHECK(status == RNCV_MEMORY ? reason.kind == RNCV_REASON_VALUE : status == RNCV_DONE && reason.kind == RNCV_REASON_TEXT_VALUE);
    }
    if (status == RNCV_DONE) {
        status = rncv_expected_in_place(&schema, buffer, sizeof buffer, &length);
        CHECK(status == RNCV_MEMORY ? length == 99 && buffer[0] == '.' : status == RNCV_DONE);
        CHECK(status == RNCV_MEMORY || (length == sizeof wanted - 1 && memcmp(buffer, wanted, length) == 0));
    }
    length = 99;
    if (status == RNCV_MEMORY && rncv_events_held(&schema, &length) == RNCV_DONE) {
        /* what came before a call that ran out of memory stays, or each later call for the document does too */
        first = last = -1;
        int32_t later = rncv_events_start_reason(&schema, NULL, 0, (const uint8_t *)"d", 1, NULL, 0, &reason);
        CHECK(later == RNCV_DONE || later == RNCV_MEMORY);
    }
    rncv_schema_free(&schema);
    return status == RNCV_DONE;
}

/* Asks what a tag may have behind an attribute: returns 1 if it is written, 0 if a call ran out of memory. */
static int options_once(void) {
    static const char wanted[] = "attribute * except ( {}b )\nattribute {}b\nrequired {}b\ntext\nvalue  token 1\n" WORD_LINE;
    static const uint8_t u[] = "u";
    static const uint8_t names[] = "abd";
    rncv_attribute given = {u, 1, (const uint8_t *)"c", 1, (const uint8_t *)"", 0};
    rncv_schema schema = RNCV_NOTHING;
    uint8_t buffer[256] = {'.'};
    size_t length = 99;
    int32_t status = compile("default namespace = \"u\" element a { attribute b { \"1\" | " WORD " }, attribute * - b { text }* }", &schema);
    if (status == RNCV_DONE) {
        status = rncv_events_begin(&schema);
    }
    if (status == RNCV_DONE) {
        status = rncv_events_tag_options(&schema, u, 1, names, 1, &given, 1, NULL, 0, names + 1, 1, buffer, sizeof buffer, &length);
        CHECK(status == RNCV_MEMORY ? length == 99 && buffer[0] == '.' : status == RNCV_DONE);
        CHECK(status == RNCV_MEMORY || (length == sizeof wanted - 1 && memcmp(buffer, wanted, length) == 0));
    }
    size_t held = 99;
    if (status == RNCV_MEMORY && rncv_events_held(&schema, &held) == RNCV_DONE) {
        /* the document stays, or each later call for it runs out of memory too */
        first = last = -1;
        int32_t later = rncv_events_tag_options(&schema, NULL, 0, names + 2, 1, NULL, 0, NULL, 0, names, 1, buffer, sizeof buffer, &length);
        CHECK((later == RNCV_REFUSED || later == RNCV_MEMORY) && length == 99 && buffer[0] == '.');
    }
    rncv_schema_free(&schema);
    return status == RNCV_DONE;
}

/* Tells a document that is invalid, in PYX and as events, and asks why: returns 1 if it is told, 0 if a call ran out of memory. */
static int fault_reason_once(void) {
    rncv_attribute given = {(const uint8_t *)"", 0, (const uint8_t *)"b", 1, (const uint8_t *)"2", 1};
    rncv_schema schema = RNCV_NOTHING;
    rncv_reason reason = {99, 99};
    uint64_t since = 99;
    rncv_verdict verdict = {7, 7, 7};
    int32_t status = compile("default namespace = \"u\" element a { attribute b { \"1\" } }", &schema);
    for (int turn = 0; turn < 2 && status == RNCV_DONE; turn++) {
        reason = (rncv_reason){99, 99};
        status = turn == 0 ? rncv_document_begin(&schema) : rncv_events_begin(&schema);
        if (status == RNCV_DONE) {
            CHECK(rncv_want_reasons(&schema) == RNCV_DONE);
            status = turn == 0 ? feed(&schema, "(a\nAxmlns u\nAb 2\n)a\n") : start(&schema, 1, "a", &given, 1);
        }
        if (status == RNCV_DONE) {
            status = turn == 0 ? rncv_document_invalid_since(&schema, &since) : rncv_events_invalid_since(&schema, &since);
            CHECK(status == RNCV_DONE && since == (turn == 0 ? 4 : 1));
            status = rncv_fault_reason(&schema, &reason);
            CHECK(status == RNCV_MEMORY ? reason.kind == 99 && reason.attribute == 99 : status == RNCV_DONE);
            CHECK(status == RNCV_MEMORY || (reason.kind == RNCV_REASON_VALUE && reason.attribute == 0));
            CHECK(status == RNCV_DONE || rncv_fault_reason(&schema, &reason) == RNCV_MEMORY);
        }
        if (status == RNCV_DONE && turn == 0) {
            status = rncv_document_end(&schema, &verdict);
            CHECK(status != RNCV_DONE || (verdict.kind == RNCV_INVALID && verdict.line == 4));
        }
    }
    rncv_schema_free(&schema);
    return status == RNCV_DONE;
}

/* Asks for the place of a datatype: returns 1 if it is written, 0 if the call ran out of memory. */
static int datatype_place_once(void) {
    const char *text = "datatypes d = \"u\" element a { xsd:string { maxLength = \"1\" } | xsd:byte \"7\" | attribute b { xsd:QName } | list { d:e } }";
    rncv_fault place = {7, 7, 7, 7, 7};
    int32_t status = rncv_datatype_place((const uint8_t *)text, strlen(text), RNCV_DATATYPES_XML_SCHEMA, &place);
    CHECK(status == RNCV_MEMORY ? place.clause == 7 && place.file == 7 && place.column == 7 : status == RNCV_DONE);
    CHECK(status == RNCV_MEMORY || (place.clause == 12 && place.file == 0 && place.offset == 113 && place.line == 1 && place.column == 114));
    return status == RNCV_DONE;
}

/* The same for a file without one. */
static int no_datatype_place_once(void) {
    const char *text = "element a { xsd:string { maxLength = \"1\" } | xsd:byte \"7\" }";
    rncv_fault place = {7, 7, 7, 7, 7};
    int32_t status = rncv_datatype_place((const uint8_t *)text, strlen(text), RNCV_DATATYPES_XML_SCHEMA, &place);
    CHECK(place.clause == 7 && place.column == 7 && (status == RNCV_MEMORY || status == RNCV_REFUSED));
    return status == RNCV_REFUSED;
}

/* Refuses each growth of one call in turn. */
static void each_growth_of(int (*once)(void)) {
    growth = 0;
    first = last = -1;
    CHECK(once());
    long count = growth;
    CHECK(count > 2);
    for (long refused = 0; refused < count; refused++) {
        growth = 0;
        first = last = refused;
        once();
    }
    growth = 0;
    first = 0;
    last = 1000000;
    CHECK(!once());
    first = last = -1;
}

/* After a document ran out of memory, the schema still works. */
static void recovers(void) {
    rncv_schema schema = RNCV_NOTHING;
    rncv_verdict verdict;

    first = last = -1;
    CHECK(compile(SCHEMA, &schema) == RNCV_DONE);
    for (long refused = 0; refused < 200; refused++) {
        growth = 0;
        first = refused;
        last = refused + 1000000;
        if (rncv_document_begin(&schema) == RNCV_DONE) {
            int32_t status = feed(&schema, DOCUMENT);
            CHECK(status == RNCV_DONE || status == RNCV_MEMORY);
            if (status == RNCV_MEMORY) {
                CHECK(feed(&schema, "") == RNCV_MEMORY);
            }
        }
        first = last = -1;
        CHECK(rncv_document_begin(&schema) == RNCV_DONE);
        CHECK(feed(&schema, DOCUMENT) == RNCV_DONE);
        CHECK(rncv_document_end(&schema, &verdict) == RNCV_DONE && verdict.kind == RNCV_VALID);
    }
    rncv_schema_free(&schema);
}

/* The same for documents of events. */
static void events_recover(void) {
    rncv_schema schema = RNCV_NOTHING;
    rncv_verdict verdict;

    first = last = -1;
    CHECK(compile("element * { attribute * { text }*, (element * { attribute * { text }*, text })* }", &schema) == RNCV_DONE);
    for (long refused = 0; refused < 100; refused++) {
        growth = 0;
        first = refused;
        last = refused + 1000000;
        if (rncv_events_begin(&schema) == RNCV_DONE) {
            int32_t status = tell(&schema);
            CHECK(status == RNCV_DONE || status == RNCV_MEMORY);
        }
        first = last = -1;
        CHECK(rncv_events_begin(&schema) == RNCV_DONE && tell(&schema) == RNCV_DONE);
        CHECK(rncv_events_finish(&schema, &verdict) == RNCV_DONE && verdict.kind == RNCV_VALID);
    }
    rncv_schema_free(&schema);
}

/* Refuses each growth of a run in turn, and all from one on. Returns how many there are. */
static long each_growth_of_a_run(int (*once)(void)) {
    growth = 0;
    first = last = -1;
    CHECK(once());
    long count = growth;
    long step = is_quick() ? 1 + count / 100 : 1;
    CHECK(count > 10);
    for (long refused = 0; refused < count; refused += step) {
        growth = 0;
        first = last = refused;
        once();
        growth = 0;
        first = refused;
        last = refused + 1000000;
        CHECK(!once() || refused > 0); /* a run can do without some later growths */
    }
    first = last = -1;
    CHECK(once());
    return count;
}

int main(void) {
    long count = each_growth_of_a_run(run_once);
    count += each_growth_of_a_run(run_once_with_all_types);
    count += each_growth_of_a_run(events_once);
    recovers();
    events_recover();
    each_growth_of(name_once);
    each_growth_of(mentions_once);
    each_growth_of(refusal_once);
    each_growth_of(expected_once);
    each_growth_of(expected_tag_once);
    each_growth_of(reasons_once);
    each_growth_of(options_once);
    each_growth_of(fault_reason_once);
    each_growth_of(datatype_place_once);
    each_growth_of(no_datatype_place_once);
    printf("growths: %ld\n", count);
    return outcome("memory");
}
