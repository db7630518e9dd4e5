/* That nothing of a document's texts, attribute values and names is left in memory once the document has ended. What is free does not count: the library's
 * blocks are overwritten before they are freed, and so is the stack that returned calls used. */
#define _DEFAULT_SOURCE
#include "testing.h"

#include <fcntl.h>
#include <malloc.h>
#include <sys/mman.h>
#include <unistd.h>

/* A secret is LENGTH letters. No array holds it: each letter is computed where it is needed. The search finds any WINDOW of them in a row that begins at
 * a multiple of WINDOW. */
enum { SECRETS = 6, LENGTH = 48, WINDOW = 8 };

static const char *const NAMES[SECRETS] = {"attribute value", "text", "piece of a list", "element's name", "attribute's name", "namespace"};

static volatile unsigned salt = 11;

static char letter(unsigned secret, unsigned at) {
    unsigned mixed = (secret + 1) * 40503u + (at + salt) * (at + 3 * salt) * 2654435761u;
    return (char)('a' + (mixed >> 16) % 26);
}

/* What is fed. */
typedef struct pieces {
    char *bytes;
    size_t length;
} pieces;

static void add(pieces *all, char byte) {
    all->bytes[all->length] = byte;
    all->length += 1;
}

static void add_text(pieces *all, const char *text) {
    for (; *text != '\0'; text += 1) {
        add(all, *text);
    }
}

static void add_secret(pieces *all, unsigned secret) {
    for (unsigned at = 0; at < LENGTH; at += 1) {
        add(all, letter(secret, at));
    }
}

/* The lines of a start tag with names that are secrets. */
static void add_names(pieces *all) {
    add(all, '(');
    add_secret(all, 3);
    add_text(all, "\nA");
    add_secret(all, 4);
    add_text(all, " x\nAxmlns ");
    add_secret(all, 5);
    add(all, '\n');
}

/* A document with the secrets, which ends in this text. */
static pieces document_with(const char *end) {
    pieces all = {malloc(4096), 0};
    CHECK(all.bytes != NULL);
    add_text(&all, "(doc\nAkey ");
    add_secret(&all, 0);
    add_text(&all, "\n(note\n-");
    add_secret(&all, 1);
    add_text(&all, "\n)note\n(words\n-v1 ");
    add_secret(&all, 2);
    add_text(&all, " v2 ");
    add_secret(&all, 2);
    add_text(&all, "\n)words\n");
    add_names(&all);
    add_text(&all, ")");
    add_secret(&all, 3);
    add_text(&all, "\n");
    add_text(&all, end);
    return all;
}

void __real_free(void *block);
void *__wrap_realloc(void *block, size_t size);
void __wrap_free(void *block);

/* Overwrites a block of the library, and frees it. */
void __wrap_free(void *block) {
    if (block != NULL) {
        volatile char *bytes = block;
        size_t length = malloc_usable_size(block);
        for (size_t at = 0; at < length; at += 1) {
            bytes[at] = 0;
        }
    }
    __real_free(block);
}

/* Always moves the block, so that its old place is overwritten. */
void *__wrap_realloc(void *block, size_t size) {
    void *moved = malloc(size);
    if (moved == NULL || block == NULL) {
        return moved;
    }
    size_t length = malloc_usable_size(block);
    memcpy(moved, block, length < size ? length : size);
    __wrap_free(block);
    return moved;
}

/* Overwrites the stack that returned calls used. */
static __attribute__((noinline)) void clear_stack(void) {
    volatile char room[1 << 19];
    for (size_t at = 0; at < sizeof room; at += 1) {
        room[at] = 0;
    }
}

static int has_window(const char *bytes, unsigned secret, unsigned from) {
    for (unsigned at = 0; at < WINDOW; at += 1) {
        if (bytes[at] != letter(secret, from + at)) {
            return 0;
        }
    }
    return 1;
}

/* How many windows of a secret are in these bytes. */
static size_t windows_in(const char *bytes, size_t length, unsigned secret) {
    size_t found = 0;
    for (unsigned from = 0; from < LENGTH; from += WINDOW) {
        char first = letter(secret, from);
        for (size_t at = 0; at + WINDOW <= length; at += 1) {
            if (bytes[at] == first && has_window(bytes + at, secret, from)) {
                found += 1;
            }
        }
    }
    return found;
}

enum { ROOM = 1 << 20 };

/* Counts the windows of each secret from one address to another, as read from `memory` into `room`. Returns how many bytes were read. */
static size_t count_between(int memory, char *room, unsigned long from, unsigned long to, size_t found[SECRETS]) {
    size_t bytes = 0;
    while (from + WINDOW <= to) {
        size_t wanted = to - from < ROOM ? to - from : ROOM;
        ssize_t length = pread(memory, room, wanted, (off_t)from);
        if (length < WINDOW) {
            break;
        }
        for (unsigned secret = 0; secret < SECRETS; secret += 1) {
            found[secret] += windows_in(room, (size_t)length, secret);
        }
        bytes += (size_t)length;
        from += (unsigned long)length - WINDOW + 1;
    }
    return bytes;
}

/* Counts the windows of each secret in all memory that the process may write, except for the room of the search itself. */
static void count_in_memory(size_t found[SECRETS]) {
    char *room = mmap(NULL, ROOM, PROT_READ | PROT_WRITE, MAP_PRIVATE | MAP_ANONYMOUS, -1, 0);
    FILE *maps = fopen("/proc/self/maps", "r");
    int memory = open("/proc/self/mem", O_RDONLY);
    unsigned long own = (unsigned long)room;
    size_t bytes = 0;
    char line[512];

    CHECK(room != MAP_FAILED && maps != NULL && memory >= 0);
    memset(found, 0, SECRETS * sizeof *found);
    clear_stack();
    while (fgets(line, sizeof line, maps) != NULL) {
        char *rest;
        unsigned long from = strtoul(line, &rest, 16);
        unsigned long to = strtoul(rest + 1, &rest, 16);
        if (strncmp(rest, " rw", 3) != 0) {
            continue;
        }
        if (from <= own && own < to) {
            bytes += count_between(memory, room, from, own, found);
            from = own + ROOM;
        }
        bytes += count_between(memory, room, from, to, found);
    }
    CHECK(bytes > 0);
    close(memory);
    fclose(maps);
    munmap(room, ROOM);
}

static void check_nothing_is_left(const char *when) {
    size_t found[SECRETS];
    count_in_memory(found);
    for (unsigned secret = 0; secret < SECRETS; secret += 1) {
        if (found[secret] != 0) {
            fprintf(stderr, "%s: %zu times %d letters of the %s are in memory\n", when, found[secret], WINDOW, NAMES[secret]);
            failures += 1;
        }
    }
}

/* A list of more values than have their tests kept one by one, and an element and attributes of any name. */
static int compile_words(rncv_schema *schema) {
    char text[4096] = "element doc { attribute key { text }, element note { text }, element words { list { (token";
    for (unsigned value = 0; value < 100; value += 1) {
        size_t length = strlen(text);
        snprintf(text + length, sizeof text - length, " | \"v%u\"", value);
    }
    strncat(text, ")* } }, element * { attribute * { text }* } }", sizeof text - strlen(text) - 1);
    return compile(text, schema);
}

static void feed_pieces(rncv_schema *schema, const pieces *all, size_t piece) {
    for (size_t at = 0; at < all->length; at += piece) {
        size_t rest = all->length - at;
        int32_t status = rncv_document_feed(schema, (const uint8_t *)all->bytes + at, rest < piece ? rest : piece);
        CHECK(status == RNCV_DONE || status == RNCV_MALFORMED);
    }
}

/* Judges a document that ends so, and looks for its secrets then. */
static void forgets(rncv_schema *schema, const char *end, size_t piece, int32_t kind) {
    rncv_verdict verdict = {7, 7, 7};
    pieces all = document_with(end);
    CHECK(rncv_document_begin(schema) == RNCV_DONE);
    feed_pieces(schema, &all, piece);
    CHECK(rncv_document_end(schema, &verdict) == RNCV_DONE);
    CHECK(verdict.kind == kind);
    free(all.bytes);
    if (!is_quick()) {
        check_nothing_is_left(end);
    }
}

/* The search finds what the library holds of a document that has begun so: the secrets from `first` to `last`, and no other. Then the document is dropped. */
static void finds(rncv_schema *schema, pieces all, unsigned first, unsigned last) {
    size_t found[SECRETS];
    CHECK(rncv_document_begin(schema) == RNCV_DONE);
    feed_pieces(schema, &all, 16);
    free(all.bytes);
    if (!is_quick()) {
        count_in_memory(found);
        for (unsigned secret = 0; secret < SECRETS; secret += 1) {
            int is_held = first <= secret && secret <= last;
            CHECK(is_held ? found[secret] >= LENGTH / WINDOW : found[secret] == 0);
        }
    }
    CHECK(rncv_document_begin(schema) == RNCV_DONE);
    if (!is_quick()) {
        check_nothing_is_left("a document that was dropped");
    }
}

/* An attribute of a tag that has not ended; and the names of such a tag. */
static void finds_what_is_held(rncv_schema *schema) {
    pieces value = {malloc(4096), 0};
    pieces names = {malloc(4096), 0};
    CHECK(value.bytes != NULL && names.bytes != NULL);
    add_text(&value, "(doc\nAkey ");
    add_secret(&value, 0);
    finds(schema, value, 0, 0);
    add_text(&names, "(doc\n");
    add_names(&names);
    finds(schema, names, 3, 5);
}

/* A document that fails at a start tag with an attribute, whose names and value are secrets. */
static pieces document_that_fails(void) {
    pieces all = {malloc(4096), 0};
    CHECK(all.bytes != NULL);
    add_text(&all, "(doc\nAkey k\n(");
    add_secret(&all, 3);
    add_text(&all, "\nA");
    add_secret(&all, 4);
    add_text(&all, " ");
    add_secret(&all, 0);
    add_text(&all, "\nAxmlns ");
    add_secret(&all, 5);
    add_text(&all, "\n-");
    add_secret(&all, 1);
    add_text(&all, "\n)");
    add_secret(&all, 3);
    add_text(&all, "\n)doc\n");
    return all;
}

/* The reason of the tag is told to who asked for reasons, and to nobody else. */
static void check_reason(rncv_schema *schema, int is_wanted) {
    rncv_reason reason = {99, 99};
    CHECK(rncv_fault_reason(schema, &reason) == RNCV_DONE && reason.attribute == 0);
    CHECK(reason.kind == (is_wanted ? RNCV_REASON_ELEMENT : RNCV_REASON_NONE));
}

/* Judges it, and looks for its secrets then. */
static void forgets_what_failed(rncv_schema *schema, size_t piece, int is_wanted) {
    rncv_verdict verdict = {7, 7, 7};
    pieces all = document_that_fails();
    CHECK(rncv_document_begin(schema) == RNCV_DONE && (!is_wanted || rncv_want_reasons(schema) == RNCV_DONE));
    feed_pieces(schema, &all, piece);
    free(all.bytes);
    check_reason(schema, is_wanted);
    CHECK(rncv_document_end(schema, &verdict) == RNCV_DONE && verdict.kind == RNCV_INVALID);
    if (!is_quick()) {
        check_nothing_is_left(is_wanted ? "a tag that was kept" : "a tag that failed");
    }
}

/* The same document as events. */
static void forgets_events_that_failed(rncv_schema *schema, int is_wanted) {
    rncv_verdict verdict = {7, 7, 7};
    pieces all = {malloc(4096), 0};
    CHECK(all.bytes != NULL);
    for (unsigned secret = 0; secret < SECRETS; secret += 1) {
        add_secret(&all, secret);
    }
    const uint8_t *secrets = (const uint8_t *)all.bytes;
    rncv_attribute key = {NULL, 0, (const uint8_t *)"key", 3, (const uint8_t *)"k", 1};
    rncv_attribute attribute = {NULL, 0, secrets + 4 * LENGTH, LENGTH, secrets, LENGTH};
    CHECK(rncv_events_begin(schema) == RNCV_DONE && (!is_wanted || rncv_want_reasons(schema) == RNCV_DONE));
    CHECK(rncv_events_start(schema, 1, NULL, 0, (const uint8_t *)"doc", 3, &key, 1) == RNCV_DONE);
    CHECK(rncv_events_start(schema, 2, secrets + 5 * LENGTH, LENGTH, secrets + 3 * LENGTH, LENGTH, &attribute, 1) == RNCV_DONE);
    CHECK(rncv_events_text(schema, secrets + LENGTH, LENGTH) == RNCV_DONE);
    CHECK(rncv_events_end(schema, 3) == RNCV_DONE && rncv_events_end(schema, 4) == RNCV_DONE);
    free(all.bytes);
    check_reason(schema, is_wanted);
    CHECK(rncv_events_finish(schema, &verdict) == RNCV_DONE && verdict.kind == RNCV_INVALID && verdict.line == 2);
    if (!is_quick()) {
        check_nothing_is_left(is_wanted ? "a start that was kept" : "a start that failed");
    }
}

int main(void) {
    rncv_schema schema = RNCV_NOTHING;

    CHECK(compile_words(&schema) == RNCV_DONE);
    if (!is_quick()) {
        check_nothing_is_left("no document");
    }
    for (size_t piece = 1; piece <= 4096; piece *= 8) {
        forgets(&schema, ")doc\n", piece, RNCV_VALID);
        forgets(&schema, "(more\n)more\n)doc\n", piece, RNCV_INVALID);
        forgets(&schema, ")cod\n", piece, RNCV_BROKEN);
        forgets(&schema, "", piece, RNCV_BROKEN);
    }
    finds_what_is_held(&schema);
    for (int is_wanted = 0; is_wanted <= 1; is_wanted += 1) {
        forgets_what_failed(&schema, 1, is_wanted);
        forgets_what_failed(&schema, 4096, is_wanted);
        forgets_events_that_failed(&schema, is_wanted);
    }
    rncv_schema_free(&schema);
    return outcome("secrets_test");
}
