/* Judges a document by the library:   judge SET SCHEMA DOCUMENT
 *
 * SET is a number of `enum rncv_datatypes`, SCHEMA a file in the compact syntax, and DOCUMENT one of PYX lines. Prints the kind of the verdict. */
#include <rncv.h>
#include <stdio.h>
#include <stdlib.h>
#include <string.h>

struct text {
    uint8_t *bytes;
    size_t length;
};

static struct text read_whole(const char *path) {
    struct text text = {NULL, 0};
    FILE *file = fopen(path, "rb");
    if (file == NULL || fseek(file, 0, SEEK_END) != 0) exit(2);
    const long end = ftell(file);
    if (end < 0) exit(2);
    rewind(file);
    text.length = (size_t)end;
    text.bytes = malloc(text.length + 1);
    if (text.bytes == NULL || fread(text.bytes, 1, text.length, file) != text.length) exit(2);
    fclose(file);
    return text;
}

int main(int count, char **words) {
    if (count != 4) return 2;
    const struct text schema_text = read_whole(words[2]);
    const struct text document = read_whole(words[3]);
    const rncv_file file = {(const uint8_t *)"schema", strlen("schema"), schema_text.bytes, schema_text.length};
    rncv_schema schema = RNCV_NOTHING;
    rncv_fault fault;
    rncv_verdict verdict;
    if (rncv_compile_with(&file, 1, (uint32_t)strtoul(words[1], NULL, 10), &schema, &fault) != RNCV_DONE) return 1;
    if (rncv_document_begin(&schema) != RNCV_DONE) return 1;
    const size_t piece = 65536;
    for (size_t at = 0; at < document.length; at += piece) {
        const size_t left = document.length - at;
        (void)rncv_document_feed(&schema, document.bytes + at, left < piece ? left : piece);
    }
    if (rncv_document_end(&schema, &verdict) != RNCV_DONE) return 1;
    printf("%d\n", (int)verdict.kind);
    rncv_schema_free(&schema);
    free(schema_text.bytes);
    free(document.bytes);
    return 0;
}
