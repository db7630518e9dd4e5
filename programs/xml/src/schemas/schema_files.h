/* The files of a schema. What a file mentions is found beside it, and the library gets it under the words that mention it. */
#ifndef SCHEMA_FILES_H
#define SCHEMA_FILES_H

#include "catalogs.h"
#include "origins.h"

#include <rncv.h>

struct schema_file {
    struct bytes name;    /* under which the library gets it */
    struct bytes path;    /* where it is, and the name that people see */
    /* What the library gets: with blanks for the annotations that it does not have; of a file in the XML syntax, what was written in the compact one. */
    struct bytes content;
    struct bytes original;  /* the file in the compact syntax as it is, if that is another text */
    struct origins origins; /* of the content, if it was written of a file in the XML syntax */
    struct bytes merged;    /* the content with other files in it, if there are too many files */
};

/* The text as it is in the file. */
const struct bytes *schema_file_written(const struct schema_file *file);
/* The text that the library gets. */
const struct bytes *schema_file_handed(const struct schema_file *file);

/* A mention of a file that is not there. */
struct missing {
    bool is_there;     /* whether there is such a mention */
    struct bytes path; /* the file that mentions it */
    struct bytes name; /* the words */
    struct bytes sought; /* where it was looked for */
    struct place place;
};

/* `--map HREF=FILE` */
struct mapping {
    const char *href;
    size_t href_length;
    const char *file;
};

struct schema_files {
    struct schema_file *list; /* the main file first */
    size_t count;
    size_t capacity;
    size_t handed;          /* how many the library gets; those after them are written into others */
    bool is_judged;         /* the files were judged by themselves, since there are too many */
    rncv_fault judged;      /* what they break */
    struct missing missing; /* the first one, in the order in which the library needs files */
    struct bytes problem;   /* why no schema can be made from the files: a line without the program's name */
    struct bytes problem_path; /* the file that the problem is about; empty: it is not about one file */
    struct place problem_place; /* in that file; line 0: none */
    int problem_status;     /* the exit status for that */
    struct bytes notes;     /* lines about what is not read of files in the XML syntax, without the program's name */
    unsigned long long loosened;  /* how many datatypes were loosened in the files, as rncv-profile says in them */
    unsigned long long tightened; /* .. and tightened */
    unsigned long long marked;    /* how many datatypes of IDs have a mark (id_types.h) */
    bool names_ids;         /* a file names a datatype of IDs itself */
    bool names_context;     /* a file may name a datatype that depends on the document (schema_context.h) */
    bool failed;            /* memory ran out */
};

/* What a caller says about the files. */
struct schema_request {
    const char *const *given;
    size_t given_count;
    const struct mapping *mappings;
    size_t mapping_count;
    const char *later; /* a later word that has the name of a schema; NULL: there is none */
    const struct catalogs *catalogs; /* for URIs that would have to be fetched; NULL: none */
    bool is_flat;      /* files in the XML syntax get plain names that end in `.rnc`, and others may mention none */
    bool refuses_notes; /* a file in the XML syntax about which something would be noted is no schema */
    size_t most;       /* of files that are handed in; 0: as many as the library takes. For tests. */
};

/* False: `problem` says why. */
bool schema_files_collect(struct schema_files *files, const struct schema_request *request);

/* Takes what a text names, and what rncv-profile says in it. False: out of memory. */
bool schema_files_take_text(struct schema_files *files, const char *text, size_t length);

/* The column of a fault, in the file as it is written. Blanks for annotations have a column for each byte. */
int64_t schema_files_column(const struct schema_files *files, const rncv_fault *fault);

/* Compiles the files, which may name the datatypes of this set. Returns the status of the library, or RNCV_MEMORY if there is no memory for the call. */
int32_t schema_files_compile(const struct schema_files *files, uint32_t datatypes, rncv_schema *schema, rncv_fault *fault);

/* Frees the contents, which are not needed once the schema is compiled. */
void schema_files_forget(struct schema_files *files);
void schema_files_free(struct schema_files *files);

#endif
