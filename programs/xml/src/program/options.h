/* The words on the command line of rncv-xml. */
#ifndef OPTIONS_H
#define OPTIONS_H

#include "schema_files.h"

enum format {
    FORMAT_TEXT,
    FORMAT_JSON,
    FORMAT_SARIF,
    FORMAT_GITHUB
};

/* When to do what suits a terminal. */
enum when {
    WHEN_TERMINAL,
    WHEN_ALWAYS,
    WHEN_NEVER
};

enum { MOST_JOBS = 64, USUAL_FAULTS = 20, MOST_FAULTS = 1000, MOST_ALLOWED = 1000000000 /* attributes of a tag */ };

struct options {
    const char **schemas;
    size_t schema_count;
    const char **documents;
    size_t document_count;
    const char **globs;
    size_t glob_count;
    struct mapping *mappings;
    size_t mapping_count;
    const char **catalogs;
    size_t catalog_count;
    uint32_t datatypes;     /* that the schema may name: RNCV_DATATYPES_PROFILE or RNCV_DATATYPES_XML_SCHEMA */
    size_t depth;           /* the most elements that may be open; 0: as many as usual */
    size_t memory;          /* the most bytes that may be held of a document; 0: as many as usual */
    size_t attributes;      /* the most attributes and declarations of a tag; 0: as many as usual */
    size_t most_faults;     /* that are told of a document; all but the first are hints */
    size_t most_files;      /* that the library gets; 0: as many as it takes */
    const char *files_from;
    const char *input_name; /* the name of standard input in what is printed */
    size_t jobs;            /* 0: as many as there are processors */
    enum format format;
    enum when color;
    enum when source; /* when lines of documents are shown */
    bool is_recursive;
    bool has_zeros; /* a zero byte ends each name of `files_from` */
    bool reports_all;
    bool is_verbose;
    bool is_quiet;
    bool is_strict; /* about the schema: a copy that rncv-profile changed is refused */
    bool prints_schema;
    bool refuses_notes;
    bool loads_dtd;
    bool skips_ids;
    bool wants_help;
    bool wants_version;
    struct bytes wrong; /* what is wrong with the words */
    bool failed;        /* memory ran out */
};

/* False: memory ran out, as `failed` says; or the words are wrong, and `wrong` says why. */
bool options_read(struct options *options, int count, char **words);
void options_free(struct options *options);
const char *options_help(void);

#endif
