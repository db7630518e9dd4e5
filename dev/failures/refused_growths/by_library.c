/* The program `rncv` by the C library:   by_library valid|check|simple FILES..
 * It allocates nothing itself, so each growth is one of the library. With `check` it asks what the files mention too, and with `valid` what may come next
 * behind the document. It answers as `rncv` does for files of at most 4,096 bytes (docs/use/LANGUAGE.md). */
#include "rncv.h"

#include <fcntl.h>
#include <stdbool.h>
#include <stdint.h>
#include <stdio.h>
#include <string.h>
#include <unistd.h>

enum { FILES = 4, BYTES = 4096, FAILED = 4, WRONG_WORDS = 5 };

static uint8_t texts[FILES][BYTES];
static uint8_t document[BYTES];
static char answer[BYTES];

static int say(int stream, const char *text, int status) {
    size_t length = strlen(text);
    return write(stream, text, length) == (ssize_t)length ? status : FAILED;
}

static int fails(const char *why) {
    return say(2, why, FAILED);
}

/* Reports a refusal of the library with the clause, and for S1 to S8 with the file. */
static int refused(const rncv_file *files, size_t count, int32_t clause) {
    uint8_t name[256];
    size_t length = 0;
    int32_t status = clause > 8 ? RNCV_MISUSE : rncv_refused_name(files, count, name, sizeof name, &length);
    if (status == RNCV_MEMORY) {
        return fails("rncv: out of memory\n");
    }
    if (status == RNCV_DONE) {
        snprintf(answer, sizeof answer, "refused S%d file %.*s\n", (int)clause, (int)length, (const char *)name);
    } else {
        snprintf(answer, sizeof answer, "refused S%d\n", (int)clause);
    }
    return say(1, answer, 3);
}

static int printed(rncv_schema *schema) {
    size_t length = 0;
    switch (rncv_simple(schema, (uint8_t *)answer, sizeof answer - 1, &length)) {
    case RNCV_DONE:
        answer[length] = '\0';
        return say(1, answer, 0);
    case RNCV_MEMORY:
        return fails("rncv: out of memory\n");
    default:
        return fails("by_library: no simple form\n");
    }
}

static int judged(rncv_schema *schema) {
    ssize_t length = read(0, document, sizeof document);
    rncv_verdict verdict = {0, 0, 0};
    int32_t status = length < 0 ? RNCV_MISUSE : rncv_document_begin(schema);
    if (status == RNCV_DONE) {
        size_t size = 0;
        int32_t fed = rncv_document_feed(schema, document, (size_t)length);
        int32_t asked = rncv_expected(schema, (uint8_t *)answer, sizeof answer, &size);
        status = fed == RNCV_MEMORY || asked == RNCV_MEMORY ? RNCV_MEMORY : rncv_document_end(schema, &verdict);
    }
    if (status == RNCV_MEMORY) {
        return fails("rncv: out of memory\n");
    }
    if (status != RNCV_DONE) {
        return fails("by_library: misuse\n");
    }
    if (verdict.kind == RNCV_VALID) {
        return say(1, "valid\n", 0);
    }
    if (verdict.kind == RNCV_INVALID) {
        snprintf(answer, sizeof answer, "invalid line %llu\n", (unsigned long long)verdict.line);
        return say(1, answer, 1);
    }
    snprintf(answer, sizeof answer, "malformed P%d line %llu\n", (int)verdict.clause, (unsigned long long)verdict.line);
    return say(1, answer, 2);
}

/* Asks what each file mentions. A file that breaks a clause is refused later. */
static bool are_read(const rncv_file *files, size_t count) {
    rncv_fault fault;
    size_t length = 0;
    int32_t status = RNCV_DONE;
    for (size_t at = 0; at < count && status != RNCV_MEMORY; at++) {
        status = rncv_mentions(files[at].bytes, files[at].length, (uint8_t *)answer, sizeof answer, &length, &fault);
    }
    return status != RNCV_MEMORY;
}

static int answered(const char *command, const rncv_file *files, size_t count) {
    rncv_schema schema = RNCV_NOTHING;
    rncv_fault fault = {0, 0, 0, 0, 0};
    int status;
    if (strcmp(command, "check") == 0 && !are_read(files, count)) {
        return fails("rncv: out of memory\n");
    }
    switch (rncv_compile(files, count, &schema, &fault)) {
    case RNCV_DONE:
        status = strcmp(command, "check") == 0    ? say(1, "schema ok\n", 0)
                 : strcmp(command, "simple") == 0 ? printed(&schema)
                                                  : judged(&schema);
        break;
    case RNCV_REFUSED:
        status = refused(files, count, fault.clause);
        break;
    default:
        status = fails("rncv: out of memory\n");
    }
    rncv_schema_free(&schema);
    return status;
}

static bool is_command(const char *word) {
    return strcmp(word, "valid") == 0 || strcmp(word, "check") == 0 || strcmp(word, "simple") == 0;
}

int main(int count, char **words) {
    rncv_file files[FILES];
    if (count < 3 || count - 2 > FILES || !is_command(words[1]) || words[2][0] == '-') {
        return say(2, "usage: rncv valid|check|simple FILES..\n", WRONG_WORDS);
    }
    for (int at = 2; at < count; at++) {
        int file = open(words[at], O_RDONLY);
        ssize_t length = file < 0 ? -1 : read(file, texts[at - 2], BYTES);
        if (length < 0 || close(file) != 0) {
            return fails("by_library: no such file\n");
        }
        files[at - 2] = (rncv_file){(const uint8_t *)words[at], strlen(words[at]), texts[at - 2], (size_t)length};
    }
    return answered(words[1], files, (size_t)(count - 2));
}
