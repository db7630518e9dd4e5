/* rncv_xml.h: judges XML documents by a RELAX NG schema, as the program rncv-xml does.
 *
 *     rncv_xml_judge judge = RNCV_XML_NOTHING;
 *     rncv_xml_fault fault = RNCV_XML_NO_FAULT;
 *     rncv_xml_answer answer;
 *
 *     if (rncv_xml_judge_open("schema/main.rnc", NULL, 0, &judge, &fault) == RNCV_DONE) {
 *         if (rncv_xml_judge_file(&judge, "document.xml", &answer) == RNCV_DONE && answer.verdict == RNCV_XML_VALID) {
 *             ...
 *         }
 *     }
 *     rncv_xml_fault_free(&fault);
 *     rncv_xml_judge_free(&judge);
 *
 * Nothing in this library is proved. The verdict on the events that libxml2 makes of the XML comes from librncv, which is.
 *
 * Statuses. They are those of rncv.h, and RNCV_XML_UNREAD. The comment of each function names those that it returns besides RNCV_DONE. Each function that
 * returns a status returns RNCV_MISUSE, and changes nothing but `answer`, if a pointer is NULL for which a comment does not allow it, or if a handle does
 * not hold what the call needs.
 *
 * Handles. Start a judge as RNCV_XML_NOTHING, files as RNCV_XML_NO_FILES and a fault as RNCV_XML_NO_FAULT, and free each by its function. After that it may
 * be used again. Freeing it twice does nothing. Do not change what is in it, and do not copy it and use both copies.
 *
 * Ownership. Each function copies what it keeps. The texts of an answer belong to its judge, and are there until the next call on that judge, except calls
 * of rncv_xml_judge_hint; those of the answer for a document stay after rncv_xml_judge_again too. Texts end in a zero. They are UTF-8 where the names of
 * files are.
 *
 * Threads. There is no global state. Calls on different handles may run in different threads at the same time. Calls on one handle may not: give each
 * thread a judge of its own by rncv_xml_judge_share. A judge may move to another thread between two calls, if a lock, the start of a thread, a join, or an
 * atomic operation in sequential order is between them. Entities in one another take stack: 8 MiB are enough for all that is accepted. Do not call a
 * function from a signal handler, or in the child of a fork of a process with several threads.
 *
 * Output. The library writes nothing, sets no signal and does not end the process. It opens the files that are named to it, and those that the files of a
 * schema mention. It fetches nothing, and opens nothing for a document.
 */
#ifndef RNCV_XML_H
#define RNCV_XML_H

#include <rncv.h>

#ifdef __cplusplus
extern "C" {
#endif

/* A status: a file of the schema cannot be read. */
#define RNCV_XML_UNREAD 16

/* A schema that judges documents, one after the other. */
typedef struct rncv_xml_judge {
    void *hidden;
} rncv_xml_judge;

#define RNCV_XML_NOTHING {NULL}

/* Which file a mention means: an `include` or `external` of these words means the file at this path. */
typedef struct rncv_xml_mapping {
    const char *href;
    const char *path;
} rncv_xml_mapping;

/* Why the files of a schema are refused, or cannot be read. A text is NULL if there is none, or if memory ran out. */
typedef struct rncv_xml_fault {
    int32_t clause;  /* the clause 1 to 27 that the files break; 0: none, and the message says what is wrong */
    uint64_t line;   /* the place in the file, from 1; 0: not known */
    uint64_t column;
    char *path;      /* the file */
    char *message;   /* what is wrong, as rncv-xml says it, without the place */
    char *missing;   /* the file that is mentioned at this place and is not there: where it was looked for, or else the words */
} rncv_xml_fault;

#define RNCV_XML_NO_FAULT {0, 0, 0, NULL, NULL, NULL}

/* The files of a schema, for rncv_compile. */
typedef struct rncv_xml_files {
    const rncv_file *list;    /* the main file first */
    const char *const *paths; /* where each of them is */
    size_t count;
    void *hidden;
} rncv_xml_files;

#define RNCV_XML_NO_FILES {NULL, NULL, 0, NULL}

/* The most bytes of a hint's text. */
#define RNCV_XML_HINT_BYTES 512

/* Where files most likely break a clause, and by what. Outside the proof: the clause is what rncv_compile reports, and a hint is a guess about it. */
typedef struct rncv_xml_hint {
    uint64_t file;                  /* the index of the file */
    uint64_t line;                  /* the place in the file, from 1; 0: there is no hint */
    uint64_t column;                /* in characters */
    char text[RNCV_XML_HINT_BYTES]; /* a sentence without a full stop, in UTF-8, which ends in a zero; empty: there is no hint */
} rncv_xml_hint;

/* What a document is. */
enum {
    RNCV_XML_FAILED = 0,    /* it could not be read, and the message says why; there is no verdict */
    RNCV_XML_VALID = 1,
    RNCV_XML_INVALID = 2,
    RNCV_XML_MALFORMED = 3, /* it is not well-formed XML, or breaks Namespaces in XML (`clause`) */
    RNCV_XML_OUTSIDE = 4    /* something in it is outside the profile, or over a limit: 10,000 open elements, 10,000 attributes of one, 512 MiB held of it */
};

/* What is at the place of an invalid document. */
enum {
    RNCV_XML_AT_UNKNOWN = 0,
    RNCV_XML_AT_ELEMENT = 1,
    RNCV_XML_AT_ATTRIBUTE = 2,
    RNCV_XML_AT_TEXT = 3,
    RNCV_XML_AT_END = 4
};

/* The answer for a document. Its texts are never NULL. */
typedef struct rncv_xml_answer {
    int32_t verdict;
    int32_t at;
    int32_t clause;      /* the clause P6, P11 or P12 that a malformed document breaks by its names; 0: none */
    int32_t error;       /* RNCV_XML_FAILED: the `errno` of the file; 0: none */
    uint64_t line;       /* the place, from 1, in characters; 0: there is none */
    uint64_t column;
    const char *name;    /* of the element or the attribute, or the first characters of the text; empty: not known */
    const char *message; /* what rncv-xml prints after the place; empty for a valid document */
    const char *notes;   /* what is left out of the document: lines `LINE:COLUMN: note: TEXT`, each with its line feed */
    size_t note_count;   /* at most 100 of them are in `notes` */
    int32_t earlier_at;  /* where a document that is malformed or outside was invalid before that place, as for an invalid one */
    uint64_t earlier_line; /* 0: it was not, as far as it was judged */
    uint64_t earlier_column;
    const char *earlier_name;
    const char *earlier_message;
    const char *reason;    /* what is wrong with an invalid document, in the words of `rncv-xml --format json`; empty: not known */
    const char *attribute; /* the attribute that is wrong, or those that are missing, with a blank between two; empty: none is */
    const char *datatype;  /* the name of the one that the value or the text should have had; empty: none */
    const char *expected;  /* what could have been there, datatypes with their parameters: texts, each with a zero behind it, .. */
    size_t expected_count; /* .. and how many there are */
    const char *token;     /* the one that is wrong in a list; empty: none is, or not known */
} rncv_xml_answer;

/* What a function that reads a document is handed. */
typedef struct rncv_xml_piece {
    void *context; /* of the caller */
    char *bytes;   /* where the next bytes of the document go, and .. */
    size_t size;   /* .. how many there is room for */
    size_t length; /* to be set: how many were written, 0 at the end. It is SIZE_MAX before, and that says that the function has failed */
} rncv_xml_piece;

/* Reads the next bytes of a document. It is not called again after its end or a failure. It may call every function for other handles. A call for the same
 * judge returns RNCV_MISUSE, or does nothing. */
typedef void (*rncv_xml_read)(rncv_xml_piece *piece);

/* Finds the files of a schema: the main one at the path, and those that the files mention. A mention is a path beside its file, as the program's page says
 * (docs/use/XML.md). A file that is not there is left out; rncv_compile then refuses the files (S1), if it needs that one. `mappings` may be NULL if `count` is
 * 0. What `files` and `fault` held is freed. `fault` may be NULL.
 *
 * Of more than 64 files some are written into those that include them, and are not listed. If one of so many files breaks a clause from 1 to 8, all are
 * listed: rncv_compile then says S2, and rncv_xml_files_explain says which clause is broken, and where.
 *
 * RNCV_XML_UNREAD: a file cannot be read. RNCV_REFUSED: a mention may mean several files, or more than 64 files are left. RNCV_MEMORY: out of memory. `fault`
 * says more. */
int32_t rncv_xml_files_find(const char *path, const rncv_xml_mapping *mappings, size_t count, rncv_xml_files *files, rncv_xml_fault *fault);

/* Says in words and paths why rncv_compile refuses the files, with the place. If the clause has no place of its own, the place is that of a hint, if there is
 * one, and the message ends in `: hint: ` and the hint's text. If there is no hint about S12, it is what rncv_datatype_place reports of the first file that has
 * such a datatype. What `fault` held is freed. RNCV_MEMORY: out of memory. */
int32_t rncv_xml_files_explain(const rncv_xml_files *files, const rncv_fault *refused, rncv_xml_fault *fault);

/* Writes blanks over annotations in a file of a schema, in place: those that the compact syntax has and rncv_compile refuses, which are annotation elements
 * among components and annotations that follow (`>>`). rncv_xml_files_find and rncv_xml_judge_open do so with the files that they read.
 *
 * Line ends stay, and so does all else, so each offset and each line is that of the file. A blank is a character for each byte: count columns in the file as
 * it was. A file that breaks S2, S3 or S4 stays as it is, and one that is no sentence of the compact syntax is none after it. If a name in an annotation may
 * not be there (its prefix is not declared, or it is a second attribute of that name, ..), the file becomes no sentence: rncv_compile refuses it there (S6).
 * `changed` becomes 1 if a byte was changed, else 0. `bytes` may be NULL if `length` is 0.
 *
 * RNCV_MEMORY: out of memory. Then nothing is changed. */
int32_t rncv_xml_annotations_blank(void *bytes, size_t length, int32_t *changed);

/* The same for files that rncv_compile_with refuses, with the same `datatypes`. RNCV_MISUSE: also if `datatypes` is no set. */
int32_t rncv_xml_files_explain_with(const rncv_xml_files *files, const rncv_fault *refused, uint32_t datatypes, rncv_xml_fault *fault);

/* Looks for the place where files that rncv_compile refuses break this clause. The first file is the main one. There are hints about S1, about
 * S6 (a name in an annotation; if the place is not that of rncv_compile, there is another fault before it) and about S9 to S27, except S17. The files may have
 * their annotations, and then the place is the one in them. `paths` are the names of the files for people, in UTF-8; it may be NULL, and so may each of them:
 * then it is the name in the file. It takes a few times the memory of the files, and at most about a second. If memory runs out, there is no hint. */
int32_t rncv_xml_hint_find(const rncv_file *files, const char *const *paths, size_t count, int32_t clause, rncv_xml_hint *hint);

/* The same for files that rncv_compile_with refuses, with the same `datatypes`. RNCV_MISUSE: also if `datatypes` is no set. */
int32_t rncv_xml_hint_find_with(const rncv_file *files, const char *const *paths, size_t count, int32_t clause, uint32_t datatypes, rncv_xml_hint *hint);

void rncv_xml_files_free(rncv_xml_files *files);
void rncv_xml_fault_free(rncv_xml_fault *fault);

/* Finds the files of a schema, compiles them, and makes a judge. `mappings` may be NULL if `count` is 0, and `fault` may be NULL. What `judge` and `fault`
 * held is freed.
 *
 * RNCV_XML_UNREAD, RNCV_REFUSED, RNCV_MEMORY: as for rncv_xml_files_find and rncv_compile. Then `judge` is unchanged. */
int32_t rncv_xml_judge_open(const char *path, const rncv_xml_mapping *mappings, size_t count, rncv_xml_judge *judge, rncv_xml_fault *fault);

/* The same by rncv_compile_with, for a schema that may name the datatypes of a set: one of `enum rncv_datatypes`. RNCV_MISUSE: also if `datatypes` is no set.
 * With RNCV_DATATYPES_XML_SCHEMA texts of QName, NOTATION, ENTITY and ENTITIES are judged by their spelling: prefixes and entities are not looked up. */
int32_t rncv_xml_judge_open_with(const char *path, const rncv_xml_mapping *mappings, size_t count, uint32_t datatypes, rncv_xml_judge *judge,
                                 rncv_xml_fault *fault);

/* Makes a judge by a compiled schema, which is shared and not copied. `schema` is of the librncv that this library is linked to. `files` are those of the
 * schema: they name the datatypes of IDs, or have what rncv-profile says of these. `files` may be NULL if `count` is 0. Then IDs are not checked. What `judge`
 * held is freed.
 *
 * RNCV_MEMORY: out of memory. RNCV_MISUSE: also if a document is in progress. Unless the status is RNCV_DONE, `judge` is unchanged. */
int32_t rncv_xml_judge_new(rncv_schema *schema, const rncv_file *files, size_t count, rncv_xml_judge *judge);

/* The same for a schema of rncv_compile_with, with the same `datatypes`. With others, or by rncv_xml_judge_new, the verdicts are the same too, and the words
 * about a place may be others. RNCV_MISUSE: also if `datatypes` is no set. */
int32_t rncv_xml_judge_new_with(rncv_schema *schema, const rncv_file *files, size_t count, uint32_t datatypes, rncv_xml_judge *judge);

/* Makes `other` a second judge by the same schema, for example for another thread. What `other` held is freed. RNCV_MEMORY: out of memory. Unless the status
 * is RNCV_DONE, `other` is unchanged. The two are different objects. */
int32_t rncv_xml_judge_share(rncv_xml_judge *judge, rncv_xml_judge *other);

/* Says whether the judge checks that each ID is there once in a document, and that what refers to one finds it. It does so at first. There are IDs only if
 * the schema has attributes of the datatypes ID, IDREF and IDREFS, or is a copy that rncv-profile wrote of one. If RELAX NG DTD Compatibility does not allow
 * how it uses them, they are not checked, and each answer has a note that says why. */
int32_t rncv_xml_judge_ids(rncv_xml_judge *judge, int32_t wanted);

void rncv_xml_judge_free(rncv_xml_judge *judge);

/* Judge the document at a path, these bytes, or what `read` gives. The status is RNCV_DONE for every verdict, and for RNCV_XML_FAILED if the file or `read`
 * failed. `bytes` may be NULL if `length` is 0, and `context` may be NULL.
 *
 * RNCV_MEMORY: out of memory. The judge can judge the next document. Unless the status is RNCV_DONE, the answer is RNCV_XML_FAILED. */
int32_t rncv_xml_judge_file(rncv_xml_judge *judge, const char *path, rncv_xml_answer *answer);
int32_t rncv_xml_judge_bytes(rncv_xml_judge *judge, const void *bytes, size_t length, rncv_xml_answer *answer);
int32_t rncv_xml_judge_by(rncv_xml_judge *judge, rncv_xml_read read, void *context, rncv_xml_answer *answer);

/* The most hints about a document. */
#define RNCV_XML_MOST_HINTS 999

/* Looks for further faults of the document that the judge judged last, if it is invalid by the schema: `read` gives it once more, from its beginning.
 * `count` becomes how many hints there are: `most` of them, or RNCV_XML_MOST_HINTS, at most. They are those of rncv-xml (docs/use/XML.md), outside the
 * proof. If the document was valid, malformed, outside, or invalid by its IDs, nothing is read, and there are none. If `read` fails, those before that are
 * there; of another document they mean nothing. If memory runs out, there are fewer. `context` may be NULL. */
int32_t rncv_xml_judge_again(rncv_xml_judge *judge, rncv_xml_read read, void *context, size_t most, size_t *count);

/* Tells one of the hints that rncv_xml_judge_again found, in the order of their places, the first one with the index 0: as for an invalid document, with a
 * message that begins with `hint: `. RNCV_MISUSE: also if there is no such hint. */
int32_t rncv_xml_judge_hint(rncv_xml_judge *judge, size_t index, rncv_xml_answer *answer);

#ifdef __cplusplus
}
#endif

#endif
