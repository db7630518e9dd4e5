/* What the test programs share. */
#ifndef TESTING_H
#define TESTING_H

#include "rncv.h"

#include <stdio.h>
#include <stdlib.h>
#include <string.h>

static int failures = 0;

#define CHECK(fact)                                                            \
    do {                                                                       \
        if (!(fact)) {                                                         \
            fprintf(stderr, "%s:%d: not so: %s\n", __FILE__, __LINE__, #fact); \
            failures += 1;                                                     \
        }                                                                      \
    } while (0)

/* The file of this name and text. */
static inline rncv_file file_of(const char *name, const char *text) {
    rncv_file file = {(const uint8_t *)name, strlen(name), (const uint8_t *)text, strlen(text)};
    return file;
}

/* Compiles the schema of one file, which may name the datatypes of a set. */
static inline int32_t compile_with(const char *text, uint32_t datatypes, rncv_schema *schema) {
    rncv_file file = file_of("s.rnc", text);
    rncv_fault fault = {0, 0, 0, 0, 0};
    return rncv_compile_with(&file, 1, datatypes, schema, &fault);
}

/* Compiles the schema of one file. */
static inline int32_t compile(const char *text, rncv_schema *schema) {
    rncv_file file = file_of("s.rnc", text);
    rncv_fault fault = {0, 0, 0, 0, 0};
    return rncv_compile(&file, 1, schema, &fault);
}

static inline int32_t feed(rncv_schema *schema, const char *text) {
    return rncv_document_feed(schema, (const uint8_t *)text, strlen(text));
}

/* Whether a slow test should do less, as under valgrind. */
static inline int is_quick(void) {
    return getenv("RNCV_QUICK") != NULL;
}

static inline int outcome(const char *name) {
    if (failures != 0) {
        printf("%s: FAILED\n", name);
        return EXIT_FAILURE;
    }
    printf("%s: ok\n", name);
    return EXIT_SUCCESS;
}

#endif
