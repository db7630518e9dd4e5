/* Gives changed simple forms, and documents of some tags, to what checks IDs, which ids_fuzz.py builds with the sanitizers:   ids_fuzz SECONDS SEED FORM..
 *
 * Each file FORM has a printed simple form with marks. None of the calls may do anything that the sanitizers report. The ID-types of a form that is not changed
 * are the same each time. */
#include "id_check.h"

#include <stdio.h>
#include <stdlib.h>
#include <time.h>

enum { MOST_FORM = 65536, MOST_CHANGES = 6 };

static unsigned long long state;

static size_t chance(size_t count) {
    state = state * 6364136223846793005ULL + 1442695040888963407ULL;
    return (size_t)(state >> 33) % count;
}

static const char *const words[] = {
    "attribute ", "element ", "list { ", " }", " - ", " | ", " + ", "*", "n0:*", "n1:", "n99:a", "xsd:ID", "xsd:IDREFS \"a\"", "xsd:NCName",
    "{ minLength = \"000000001\" }", "{ minLength = \"0000001\" }", "p0", "p1", "e0", "e1", "e99999999", "p4294967296", "p3 = p3, p3\n", "p0 = p0+\n",
    "e0 = element a { p0 }\n", "start = ", "namespace n0 = \"\"\n", "\"", "'", " ~ ", "\\x{A}", "\\x{0}", "\\x{", "#", "(", ")", "\xFF", "text",
    "notAllowed", "=", "\n", ">>", "[",
    "\\"};

static void change(struct bytes *text) {
    for (size_t left = chance(MOST_CHANGES) + 1; left > 0; left--) {
        size_t at = chance(text->length + 1);
        size_t cut = chance(3) == 0 ? chance(20) : 0;
        const char *word = words[chance(sizeof words / sizeof *words)];
        struct bytes changed = NO_BYTES;
        cut = cut > text->length - at ? text->length - at : cut;
        bytes_add(&changed, text->data, at);
        if (chance(4) > 0) {
            bytes_add_text(&changed, word);
        } else if (text->length > 0) {
            size_t from = chance(text->length);
            size_t length = chance(200);
            bytes_add(&changed, text->data + from, length > text->length - from ? text->length - from : length);
        }
        bytes_add(&changed, text->data + at + cut, text->length - at - cut);
        bytes_free(text);
        *text = changed;
    }
}

static struct span span_of(const char *text) {
    return (struct span){text, strlen(text)};
}

/* A document of some tags. */
static void check_document(struct id_check *check) {
    static const char *const names[] = {"r", "a", "b", "id", "ref", "refs", "x"};
    static const char *const uris[] = {"", "urn:n", "http://www.w3.org/XML/1998/namespace"};
    static const char *const values[] = {"x", "y", " x  y\n z", "", "q", "\t", "x x"};
    for (uint64_t tag = 1; tag < 8; tag++) {
        struct event_attribute attributes[4];
        size_t count = chance(5);
        for (size_t at = 0; at < count; at++) {
            struct event_name name = {span_of(chance(2) == 0 ? "" : "p"), span_of(names[chance(7)]), span_of(uris[chance(3)])};
            attributes[at] = (struct event_attribute){name, span_of(values[chance(7)])};
        }
        struct event_name own = {span_of(""), span_of(names[chance(7)]), span_of(uris[chance(3)])};
        struct start_event start = {.place = {tag, 1}, .name = &own};
        start.attributes = attributes;
        start.attribute_count = count;
        if (!id_check_take(check, &start)) {
            abort();
        }
    }
}

static void check(const struct id_types *types) {
    struct id_check check;
    id_check_open(&check, types);
    for (int document = 0; document < 3; document++) {
        id_check_begin(&check);
        check_document(&check);
        struct id_fault fault = id_check_end(&check);
        if (fault.is_there) {
            text_table_text(&check.texts, fault.text);
            text_table_text(&check.names, fault.name);
        }
    }
    id_check_close(&check);
}

/* How many pairs a form has; UINT32_MAX: it is not sound. */
static uint32_t read(const struct bytes *text) {
    struct id_types types;
    struct bytes unsound = NO_BYTES;
    if (!id_types_open(&types, (struct span){text->data, text->length}, chance(8) > 0, &unsound)) {
        abort();
    }
    uint32_t count = unsound.length > 0 ? UINT32_MAX : types.pairs.count;
    check(&types);
    id_types_close(&types);
    bytes_free(&unsound);
    return count;
}

int main(int count, char **names) {
    unsigned long long forms = 0;
    unsigned long long sound = 0;
    time_t end = time(NULL) + atoi(names[1]);
    state = (unsigned long long)atoll(names[2]);
    while (time(NULL) < end) {
        FILE *file = fopen(names[3 + chance((size_t)count - 3)], "rb");
        static char room[MOST_FORM];
        size_t length = file == NULL ? 0 : fread(room, 1, sizeof room, file);
        if (file != NULL) {
            fclose(file);
        }
        for (int time = 0; time < 200; time++, forms++) {
            struct bytes text = NO_BYTES;
            bytes_add(&text, room, length);
            change(&text);
            sound += read(&text) != UINT32_MAX;
            bytes_free(&text);
        }
    }
    printf("ids_fuzz: %llu forms, %llu of them sound, no fault\n", forms, sound);
    return 0;
}
