#include "schema_context.h"

#include "schema_ids.h"
#include "schema_tokens.h"
#include "xml_names.h"

#include <stdlib.h>

/* In the simple form the prefix `xsd` is that of datatypes alone: namespaces have others. */
static const char *const names[] = {"xsd:QName", "xsd:NOTATION", "xsd:ENTITY", "xsd:ENTITIES"};

enum { NAME_COUNT = sizeof names / sizeof *names, FIRST_ENTITY = 2 };

/* Finds which of the names the simple form has. False: out of memory. */
static bool find_names(struct span form, bool found[NAME_COUNT]) {
    struct tokens tokens;
    bool is_good = tokens_open(&tokens, form.data, form.length);
    for (struct token token = is_good ? tokens_next(&tokens) : (struct token){.kind = TOKEN_NONE}; token.kind != TOKEN_NONE; token = tokens_next(&tokens)) {
        for (size_t at = 0; at < NAME_COUNT; at++) {
            found[at] |= token.kind == TOKEN_NAME && span_is(token.text, names[at]);
        }
    }
    tokens_close(&tokens);
    return is_good;
}

/* Adds the names from one index to another that were found, and what is not looked up. */
static void add_names(struct bytes *note, const bool found[NAME_COUNT], size_t first, size_t end, const char *what) {
    size_t count = 0;
    for (size_t at = first; at < end; at++) {
        if (found[at]) {
            bytes_add_text(note, count > 0 ? " and " : note->length > 0 ? "; texts of " : "texts of ");
            bytes_add_text(note, names[at]);
            count++;
        }
    }
    bytes_add_text(note, count > 0 ? what : "");
}

bool schema_context_read(rncv_schema *schema, const struct schema_files *files, struct bytes *note) {
    bool found[NAME_COUNT] = {false};
    uint8_t *form = NULL;
    size_t length = 0;
    if (!files->names_context) {
        return true;
    }
    bool is_good = schema_form(schema, &form, &length) == RNCV_DONE && find_names((struct span){(const char *)form, length}, found);
    free(form);
    add_names(note, found, 0, FIRST_ENTITY, " are judged by their spelling: their prefixes are not looked up");
    add_names(note, found, FIRST_ENTITY, NAME_COUNT, " are judged by their spelling: the entities are not looked up");
    return is_good && !note->failed;
}
