/* Hints: where a schema most likely breaks a clause, and by what. The proved library reports the clause; a hint is a guess outside the proof.
 *
 * The interface is plain, so that a library and Python can use it: arrays of files, and a structure of fixed size. It needs origins, xml_names, schema_tree,
 * schema_types, schema_asked, schema_grammars, schema_annotations, annotation_names, schema_tokens, paths and bytes, and of the library rncv_datatype_place. It
 * keeps nothing, and any thread may call it. */
#ifndef SCHEMA_HINTS_H
#define SCHEMA_HINTS_H

#include "origins.h"

#include <stddef.h>
#include <stdint.h>

#ifdef __cplusplus
extern "C" {
#endif

enum { SCHEMA_HINT_BYTES = 512 };

/* A file of a schema as it is written, with its annotations. `include` and `external` mention it by `name`, byte for byte. Only `shown` and `origins` may be
 * NULL, and `bytes` if the length is 0. */
struct schema_hint_file {
    const char *name;
    size_t name_length;
    const char *bytes;
    size_t length;
    const char *shown; /* its name for people, which ends in a zero; NULL: `name` */
    const struct origins *origins; /* from which places of another file the bytes come; NULL: the file is itself */
};

struct schema_hint {
    uint64_t file;   /* its index */
    uint64_t line;   /* from 1 */
    uint64_t column; /* from 1, in characters */
    char text[SCHEMA_HINT_BYTES]; /* a sentence without a full stop, in UTF-8, which ends in a zero; what is not UTF-8 is a question mark in it */
};

/* The datatypes of a schema, as in rncv.h. */
enum { SCHEMA_HINT_PROFILE = 0, SCHEMA_HINT_XML_SCHEMA = 1 };

/* Looks for the place that breaks the clause (1, 6 and 9 to 27), in files whose first one is the main one, which may name these datatypes. Returns 1, with the
 * hint, or 0: none is known, or memory ran out. It takes a few times the memory of the files, and at most about a second. */
int schema_hint_find(const struct schema_hint_file *files, size_t count, int clause, uint32_t datatypes, struct schema_hint *hint);

#ifdef __cplusplus
}
#endif

#endif
