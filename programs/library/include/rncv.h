/* rncv.h: a RELAX NG validator. It compiles a schema once, and then judges documents, one after the other.
 *
 * A schema is a set of files in the RELAX NG Compact Syntax. A document is in PYX, one event a line (docs/use/XML.md says how to make it of XML), or it
 * comes as events: a call for each start, text and end, with names that a parser has expanded (rncv_events_begin).
 *
 *     rncv_schema schema = RNCV_NOTHING;
 *     rncv_fault fault;
 *     rncv_verdict verdict;
 *
 *     if (rncv_compile(files, count, &schema, &fault) == RNCV_DONE) {
 *         rncv_document_begin(&schema);
 *         while (...) {
 *             rncv_document_feed(&schema, bytes, length);
 *         }
 *         rncv_document_end(&schema, &verdict);
 *         rncv_schema_free(&schema);
 *     }
 *
 * Handles. `rncv_schema` holds nothing, or a schema, or a schema with a document in progress. Start each one as RNCV_NOTHING, pass its address,
 * and free it by rncv_schema_free. Do not change what is in it. Do not copy it and use both copies: rncv_schema_share makes a second one.
 *
 * Ownership. Each function copies what it keeps. The caller may free its bytes as soon as a function returns. The library allocates by `malloc`
 * and `realloc`, and frees by `free`. A program that replaces these takes all three from one allocator, and aligns each block as the C library does:
 * to each power of two up to 16 that divides its size.
 *
 * Threads. There is no global state. Calls on different handles may run in different threads at the same time. Calls on one handle may not: give
 * each thread a handle of its own by rncv_schema_share. A handle may move to another thread between two calls, if a lock, the start of a thread, a
 * join, or an atomic operation in sequential order (memory_order_seq_cst) is between them. Handles that share a schema count in it, so what `hidden`
 * points to is for the library alone: do not read it, do not write to it.
 *
 * Rules for the caller. The arguments of one call are different objects. No pointer is NULL, unless a comment allows it. Do not call a function from
 * a signal handler, or in the child of a fork of a process with several threads.
 *
 * Output. The library writes nothing, opens no file, and does not end the process.
 */
#ifndef RNCV_H
#define RNCV_H

#include <stddef.h>
#include <stdint.h>

#define RNCV_VERSION_MAJOR 0
#define RNCV_VERSION_MINOR 9
#define RNCV_VERSION_PATCH 0
#define RNCV_VERSION "0.9.0"

#ifdef __cplusplus
extern "C" {
#endif

/* A handle: a schema, and perhaps a document in progress. */
typedef struct rncv_schema {
    void *hidden;
} rncv_schema;

/* A handle that holds nothing. */
#define RNCV_NOTHING {NULL}

/* A file of a schema. `name` is UTF-8. Other files mention the file by this name. The text need not end in a zero.
 * The pointers are not NULL, even if the length beside them is 0. */
typedef struct rncv_file {
    const uint8_t *name;
    size_t name_length;
    const uint8_t *bytes;
    size_t length;
} rncv_file;

/* Why files are refused: they break the clause S1 to S27 with this number (rncv_clause_title). */
typedef struct rncv_fault {
    int32_t clause; /* 1 to 27 */
    int64_t file;   /* the index of the first file with the name of the file that breaks the clause; -1 if the clause is not about one file,
                       or no file with that name was passed (rncv_refused_name writes that name) */
    int64_t offset; /* where in that file, in bytes from 0, for the clauses 3 to 8 and from rncv_datatype_place; otherwise -1 */
    int64_t line;   /* the line, from 1, for the same; otherwise -1. CR LF, CR and LF each end a line. */
    int64_t column; /* the column, from 1, in characters as they are written, for the same; otherwise -1 */
} rncv_fault;

/* The verdict on a document. */
typedef struct rncv_verdict {
    int32_t kind;   /* RNCV_VALID, RNCV_INVALID or RNCV_BROKEN */
    int32_t clause; /* RNCV_BROKEN: the document breaks the clause P1 to P13 with this number; otherwise, and if it came as events, 0 */
    uint64_t line;  /* RNCV_INVALID: the line, from 1, after which no continuation is valid, or the place of that event; RNCV_BROKEN: the line of
                       the clause, 0 if the document has no line or came as events; RNCV_VALID: 0 */
} rncv_verdict;

/* An attribute of an element that comes as an event: the URI of its namespace, empty if it has none, its local name, and its value. A declaration of a
 * namespace is not an attribute. No text need end in a zero. The pointers are not NULL, even if the length beside them is 0. */
typedef struct rncv_attribute {
    const uint8_t *uri;
    size_t uri_length;
    const uint8_t *local;
    size_t local_length;
    const uint8_t *value;
    size_t value_length;
} rncv_attribute;

/* Why a start or an end leaves nothing (rncv_events_start_reason, rncv_events_end_reason, rncv_fault_reason). */
typedef struct rncv_reason {
    int32_t kind;       /* one of the kinds of a reason */
    uint64_t attribute; /* RNCV_REASON_ATTRIBUTE, RNCV_REASON_VALUE: the index of the attribute, from 0; otherwise 0 */
} rncv_reason;

/* The kinds of a reason. */
enum {
    RNCV_REASON_NONE = 0,       /* it leaves something; of rncv_fault_reason: no reason is told */
    RNCV_REASON_ELEMENT = 1,    /* no element of the name may start, or each is one that nothing matches */
    RNCV_REASON_ATTRIBUTE = 2,  /* the attribute is the first one that nothing takes which is left by those before it: it is not allowed */
    RNCV_REASON_VALUE = 3,      /* the same, and an attribute of its name is left: its value is wrong */
    RNCV_REASON_MISSING = 4,    /* all attributes are taken, and others are missing */
    RNCV_REASON_TEXT = 5,       /* the text directly before may not be there: none may, or the start would leave something without it */
    RNCV_REASON_TEXT_VALUE = 6, /* the text directly before an end is none of those that may be there, and no element may come behind it */
    RNCV_REASON_INCOMPLETE = 7, /* the end comes too early */
    RNCV_REASON_NOTHING = 8     /* rncv_fault_reason: none of these is found, and yet no continuation is valid: nothing matches what is left */
};

/* The kinds of a verdict. */
enum {
    RNCV_VALID = 0,
    RNCV_INVALID = 1,
    RNCV_BROKEN = 2
};

/* The statuses. The comment of each function names those that it returns besides RNCV_DONE. */
enum {
    RNCV_DONE = 0,      /* the call did what it says */
    RNCV_REFUSED = 1,   /* the files of the schema break a clause; rncv_datatype_place: a file has no place to report; rncv_events_tag_options: nothing is left
                           behind the attributes */
    RNCV_MALFORMED = 2, /* the document breaks a clause; or it came as events, and no document begins with them */
    RNCV_MEMORY = 3,    /* out of memory */
    RNCV_MISUSE = 4,    /* the handle does not hold what the call needs, or an argument is wrong */
    RNCV_SPACE = 5      /* the buffer is too small */
};

/* The sets of datatypes that a schema may name (docs/use/LANGUAGE.md). The URI that is empty has `string` and `token` in both. In the library of XML Schema: */
enum rncv_datatypes {
    RNCV_DATATYPES_PROFILE = 0,   /* string, token, NCName, NMTOKEN, boolean, and integer of at most 38 digits */
    RNCV_DATATYPES_XML_SCHEMA = 1 /* all of XML Schema Part 2, with all of their parameters, and integers of any length; anyURI is judged by its white space
                                     alone, and QName and NOTATION by their spelling, without values */
};

/* Compiles the schema of `count` files, and puts it into `schema`. The first file is the main one. What `schema` held is freed. The datatypes are those
 * of RNCV_DATATYPES_PROFILE.
 *
 * RNCV_REFUSED: the files break a clause, and `fault` says which. RNCV_MEMORY: out of memory. RNCV_MISUSE: `count` is 0, or a name is not UTF-8.
 * Unless the status is RNCV_DONE, `schema` is unchanged. Unless it is RNCV_REFUSED, `fault` is unchanged. `files` may be NULL if `count` is 0.
 *
 * The caller keeps `files` and may free them after the call. Only one thread at a time may use `schema`. */
int32_t rncv_compile(const rncv_file *files, size_t count, rncv_schema *schema, rncv_fault *fault);

/* Does what rncv_compile does, for a schema that may name the datatypes of a set: one of `enum rncv_datatypes`. Only the clause S12 depends on it, and what
 * texts a datatype takes. With RNCV_DATATYPES_PROFILE this is rncv_compile. The schema keeps its set: handles that share it have it too.
 *
 * The statuses are those of rncv_compile. RNCV_MISUSE: also if `datatypes` is no set. The rules for the caller are those of rncv_compile. */
int32_t rncv_compile_with(const rncv_file *files, size_t count, uint32_t datatypes, rncv_schema *schema, rncv_fault *fault);

/* Writes the name of the file that breaks a clause by itself, S1 to S8, to `buffer`, which has `size` bytes, and the name's length to `length`. The
 * clause is the one that rncv_compile reports of these files, and rncv_compile_with with any set. For S1 the file may be one that was not handed in; its name is then the one by which
 * another file mentions it. The name does not end in a zero. `buffer` may be NULL if `size` is 0. Each call compiles the files again.
 *
 * RNCV_SPACE: the name does not fit; nothing is written to `buffer`, and `length` is the number of bytes that it needs. RNCV_MEMORY: out of memory.
 * RNCV_MISUSE: `count` is 0, or a name is not UTF-8, or no file breaks a clause by itself: the files are a schema, or they break one of S9 to S27.
 * After these two `buffer` and `length` are unchanged. `files` may be NULL if `count` is 0. The caller keeps `files` and `buffer`. Several threads may
 * call this at the same time, each with a buffer and a length of its own. */
int32_t rncv_refused_name(const rncv_file *files, size_t count, uint8_t *buffer, size_t size, size_t *length);

/* Writes the names of the files that a schema file mentions by `include` and `external` to `names`, which has `size` bytes, each with a zero after it, and
 * their length with the zeros to `needed`: 0 if it mentions none. They come in the order of the file, as another file would be passed to rncv_compile, and
 * those in the braces of an `include` after the name of that `include`. A name that is mentioned twice is written twice. What is in an annotation or in a
 * comment is not mentioned. No name has a zero in it, since XML has no such character (S4). The names with their zeros are never longer than the file.
 * `bytes` may be NULL if `length` is 0, and `names` if `size` is 0. The size of the file is not limited, nor how many names there are: that is S2 of
 * rncv_compile. Each call reads the file again.
 *
 * RNCV_REFUSED: the file by itself breaks a clause, S3 to S8, and `fault` says which and where, as rncv_compile would; `file` is 0. RNCV_SPACE: the names
 * do not fit; nothing is written to `names`, and `needed` is the number of bytes that they need. RNCV_MEMORY: out of memory. `needed` is unchanged unless the
 * status is RNCV_DONE or RNCV_SPACE, and `fault` unless it is RNCV_REFUSED. The caller keeps `bytes` and `names`. Several threads may call this at the same
 * time, each with `names`, `needed` and `fault` of its own. */
int32_t rncv_mentions(const uint8_t *bytes, size_t length, uint8_t *names, size_t size, size_t *needed, rncv_fault *fault);

/* Writes to `place` where a schema file has its first datatype that breaks the clause S12 with a set of datatypes, one of `enum rncv_datatypes`: the set
 * does not have it with its parameters, or it does not allow its value. `clause` is then 12, `file` is 0, and the place is that of the datatype's name. All
 * datatypes of the file count, also in components that an `include` of another file overrides, or that nothing refers to. Other files do not. Where
 * rncv_compile_with reports S12, a caller asks for each file, in the order of rncv_mentions. `bytes` may be NULL if `length` is 0. The size of the file is not
 * limited. Each call reads the file again.
 *
 * RNCV_REFUSED: the file has no such datatype, or breaks a clause, S3 to S8, by itself (rncv_mentions says which). RNCV_MEMORY: out of memory. RNCV_MISUSE:
 * `datatypes` is no set. Unless the status is RNCV_DONE, `place` is unchanged. The caller keeps `bytes`. Several threads may call this at the same time, each
 * with a `place` of its own. */
int32_t rncv_datatype_place(const uint8_t *bytes, size_t length, uint32_t datatypes, rncv_fault *place);

/* Makes `other` a second handle on the same schema, for example for another thread. What `other` held is freed. Free each of the two by itself.
 * The schema is shared and not copied.
 *
 * RNCV_MEMORY: out of memory. RNCV_MISUSE: `schema` holds no schema, or a document is in progress. Unless the status is RNCV_DONE, `other` is
 * unchanged. Only one thread at a time may use each of the two handles, and two threads may use both at the same time. */
int32_t rncv_schema_share(rncv_schema *schema, rncv_schema *other);

/* Frees what the handle holds, including a document in progress. Then the handle holds nothing. A second call does nothing. Only one thread at a
 * time may use the handle. */
void rncv_schema_free(rncv_schema *schema);

/* Begins a document, and drops one that is in progress. What was worked out from the schema for earlier documents is kept, and makes this one cheaper.
 * No name, text or attribute value of those documents is kept.
 *
 * RNCV_MEMORY: out of memory; no document is in progress, and the handle still holds the schema. RNCV_MISUSE: the handle holds nothing.
 * The handle owns the document until rncv_document_end. Only one thread at a time may use the handle. */
int32_t rncv_document_begin(rncv_schema *schema);

/* Takes the next bytes of the document in PYX. A piece may end anywhere, even inside a line or a character. `bytes` may be NULL if `length` is 0.
 *
 * RNCV_MALFORMED: the document breaks a clause; rncv_document_end says which, and where. RNCV_MEMORY: out of memory, or the document would have
 * 2^63 bytes or more. After one of these two, each later call for this document returns the same. RNCV_MISUSE: no document in PYX is in
 * progress. The caller keeps `bytes` and may free them after the call. Only one thread at a time may use the handle. */
int32_t rncv_document_feed(rncv_schema *schema, const uint8_t *bytes, size_t length);

/* Writes to `line` the line, from 1, after which no continuation is valid, or 0 while no such line is known. It is one of the lines that were fed, and
 * no document with the same lines up to it is valid. Once it is known, the verdict of rncv_document_end is RNCV_INVALID with this line, or
 * RNCV_BROKEN, or its status is RNCV_MEMORY. Allocates nothing.
 *
 * RNCV_MISUSE: no document in PYX is in progress; `line` is unchanged. Only one thread at a time may use the handle. */
int32_t rncv_document_invalid_since(rncv_schema *schema, uint64_t *line);

/* Ends the document in PYX and writes the verdict on it to `verdict`. Then the handle holds the schema, for the next document. The status is RNCV_DONE
 * for every verdict.
 *
 * RNCV_MEMORY: memory ran out for the document; it has ended, and `verdict` is unchanged. RNCV_MISUSE: no document in PYX is in progress; `verdict`
 * is unchanged. Only one thread at a time may use the handle. */
int32_t rncv_document_end(rncv_schema *schema, rncv_verdict *verdict);

/* Begins a document that comes as events, and drops a document in progress, of either kind. What was worked out from the schema for earlier documents is
 * kept, of both kinds, and makes this one cheaper.
 *
 * RNCV_MEMORY: out of memory; no document is in progress, and the handle still holds the schema. RNCV_MISUSE: the handle holds nothing.
 * The handle owns the document until rncv_events_finish. Only one thread at a time may use the handle. */
int32_t rncv_events_begin(rncv_schema *schema);

/* Takes the start of an element: the URI of its namespace, empty if it has none, its local name, and its `count` attributes, in any order. `place` is a
 * number that the caller chooses, as a line or an offset. All texts are UTF-8. `uri` may be NULL if `uri_length` is 0, `local` if `local_length` is 0, and
 * `attributes` if `count` is 0.
 *
 * RNCV_MALFORMED: no document begins with the calls so far. A text is not UTF-8, or has a character that XML does not have; a local name is no NCName; two
 * attributes have the same name; or the root has ended. RNCV_MEMORY: out of memory. After one of these two, each later call of rncv_events_start,
 * rncv_events_text and rncv_events_end for this document returns the same. RNCV_MISUSE: no document of events is in progress. The caller keeps what it
 * passes and may free it after the call. Only one thread at a time may use the handle. */
int32_t rncv_events_start(rncv_schema *schema, uint64_t place, const uint8_t *uri, size_t uri_length, const uint8_t *local, size_t local_length,
                          const rncv_attribute *attributes, size_t count);

/* Takes a text. It may be empty. Texts that follow each other are one, and it has the place of the start or end behind it. White space outside the root
 * counts for nothing. `bytes` may be NULL if `length` is 0. A character may not be cut in two. A text may be of any length: it is kept up to the next
 * start or end only where the schema tests what it says, as a datatype or a value does. White space beside an element need not be passed: the verdict of a
 * document is then the same, VALID or INVALID (blank_string_laws of the crate blank_strings). Where it is all that an element has, it counts.
 *
 * RNCV_MALFORMED: no document begins with the calls so far: the text is not UTF-8, has a character that XML does not have, or is outside the root and not
 * white space. The other statuses, and the rules for the caller, are those of rncv_events_start. */
int32_t rncv_events_text(rncv_schema *schema, const uint8_t *bytes, size_t length);

/* Takes the end of the innermost element that is open. `place` is a number that the caller chooses.
 *
 * RNCV_MALFORMED: no document begins with the calls so far: no element is open. The other statuses, and the rules for the caller, are those of
 * rncv_events_start. */
int32_t rncv_events_end(rncv_schema *schema, uint64_t place);

/* Writes to `place` the place of the start or end after which no continuation is valid, or 0 while none is known; so a caller that asks numbers its places
 * from 1. No document that begins with the calls up to that one is valid. Once it is known, the verdict of rncv_events_finish is RNCV_INVALID with this
 * place, or RNCV_BROKEN, or its status is RNCV_MEMORY. Allocates nothing.
 *
 * RNCV_MISUSE: no document of events is in progress; `place` is unchanged. Only one thread at a time may use the handle. */
int32_t rncv_events_invalid_since(rncv_schema *schema, uint64_t *place);

/* Writes to `held` how many bytes are held of the text behind the last start or end. They grow with the document: a caller that limits its memory asks after
 * texts. None are held where the schema does not test what a text says. Allocates nothing.
 *
 * RNCV_MISUSE: no document of events is in progress; `held` is unchanged. Only one thread at a time may use the handle. */
int32_t rncv_events_held(rncv_schema *schema, size_t *held);

/* Writes to `reason` why a start of this name with these `count` attributes leaves nothing of what may come next, or that it leaves something. If no continuation
 * is valid, it is about what could have come before the event after which none is: a caller that passes that start again gets why none is. Where alternatives
 * exclude one another, the order of the attributes decides which one is told. The arguments are as for rncv_events_start. The document goes on as before.
 * A text counts once a start or an end has come behind it.
 *
 * It is told by what is left of the pattern: that something is left does not say that it can be completed.
 *
 * RNCV_MALFORMED: a text is not UTF-8. RNCV_MEMORY: out of memory, or a call for the document was; later calls for it may return the same. RNCV_MISUSE: no
 * document of events is in progress. Unless the status is RNCV_DONE, `reason` is unchanged. Only one thread at a time may use the handle. */
int32_t rncv_events_start_reason(rncv_schema *schema, const uint8_t *uri, size_t uri_length, const uint8_t *local, size_t local_length,
                                 const rncv_attribute *attributes, size_t count, rncv_reason *reason);

/* Writes to `reason` why an end leaves nothing of what may come next, or RNCV_REASON_NONE exactly if the end of the innermost element may come. If no
 * continuation is valid, it is about what could have come before the event after which none is. The document goes on as before. A text counts once a start or
 * an end has come behind it: here the end is one that comes in its place.
 *
 * RNCV_MEMORY: out of memory, or a call for the document was; later calls for it may return the same. RNCV_MISUSE: no document of events is in progress.
 * Unless the status is RNCV_DONE, `reason` is unchanged. Only one thread at a time may use the handle. */
int32_t rncv_events_end_reason(rncv_schema *schema, rncv_reason *reason);

/* Asks for reasons of the document that is in progress, in PYX or as events: from now on it keeps the tag of a start after which no continuation is valid, its
 * name and its attributes with their values, for rncv_fault_reason. The tag is kept until the document ends, and no longer. Each document begins without. If no
 * continuation is valid already, nothing changes. Allocates nothing.
 *
 * RNCV_MISUSE: no document is in progress. Only one thread at a time may use the handle. */
int32_t rncv_want_reasons(rncv_schema *schema);

/* Writes to `reason` why no continuation is valid of the document that is in progress, in PYX or as events, or RNCV_REASON_NONE exactly if
 * rncv_document_invalid_since or rncv_events_invalid_since reports nothing, or if it is a start there, and rncv_want_reasons was not called before. It is the
 * reason of the start or end there; the caller need not keep its tag. The document goes on as before.
 *
 * RNCV_MEMORY: out of memory, or a call for the document was; each later call for it returns the same. RNCV_MISUSE: no document is in progress. Unless the
 * status is RNCV_DONE, `reason` is unchanged. Only one thread at a time may use the handle. */
int32_t rncv_fault_reason(rncv_schema *schema, rncv_reason *reason);

/* Ends the document that came as events and writes the verdict on it to `verdict`: RNCV_BROKEN, with 0 and 0, if the calls are no document; RNCV_INVALID
 * with the place of a start or end, after which no continuation is valid; or RNCV_VALID. Then the handle holds the schema, for the next document. The
 * status is RNCV_DONE for every verdict.
 *
 * RNCV_MEMORY: memory ran out for the document; it has ended, and `verdict` is unchanged. RNCV_MISUSE: no document of events is in progress; `verdict` is
 * unchanged. Only one thread at a time may use the handle. */
int32_t rncv_events_finish(rncv_schema *schema, rncv_verdict *verdict);

/* Writes what may come next in the document in progress, of either kind, as text, to `buffer`, which has `size` bytes, and the text's length to `length`.
 * If no continuation is valid, it is what could have come before the line, or the event, after which none is. The text has lines, each ended by a line feed,
 * and does not end in a zero. A line may come several times, and there may be none. `buffer` may be NULL if `size` is 0.
 *
 *     element CLASS              an element with one of these names may start
 *     text                       a text that is not blank may come
 *     value LIBRARY NAME TEXT    it may be this text of this datatype
 *     datatype LIBRARY NAME ..   it may be a text of this datatype. ` PARAMETER VALUE` follows for each of its parameters, in the order of the schema. What
 *                                a `-` leaves out is not written
 *
 * One space is between two fields. A library and a value may be empty. CLASS is `{URI}local`, a name; `{URI}*`, every name of a namespace, where the URI may
 * be empty; `*`, every name; or one of the latter two with other classes whose names are left out, as `* except ( {URI}* {URI}local )`. Excepts nest at most
 * twice. In a URI, a library, a name, a text and a value, `\\`, `\n`, `\r`, `\t` and `\s` stand for a backslash, LF, CR, a tab and a space. A local name has no
 * `}`.
 *
 * An element counts where its pattern stands, whether or not its content can be matched. After a text it is told what may come behind that text; a blank one
 * counts as nothing. In a document of events a text counts once a start or an end has come behind it.
 *
 * RNCV_SPACE: the text does not fit; nothing is written to `buffer`, and `length` is the number of bytes that it needs. RNCV_MEMORY: out of memory, or a call
 * for the document was. RNCV_MISUSE: no document is in progress. After these two `length` is unchanged. The caller owns `buffer`. Only one thread at a time may
 * use the handle. */
int32_t rncv_expected(rncv_schema *schema, uint8_t *buffer, size_t size, size_t *length);

/* Writes what the tag of an element of this name may have, if the element starts next in the document of events in progress, as text, to `buffer`, which has
 * `size` bytes, and the text's length to `length`. If no continuation is valid, the element starts in place of the event after which none is. `uri` and `local`
 * are as for rncv_events_start. The text has lines, as that of rncv_expected has.
 *
 *     attribute CLASS          it may have an attribute with one of these names
 *     required {URI}local      it must have this attribute
 *
 * There is no line if no such element may start. An attribute counts where its pattern is in the content of such an element, whether or not a value matches it,
 * and whether or not others may be beside it. It is required if each such element needs it.
 *
 * RNCV_MALFORMED: the name is not UTF-8. RNCV_SPACE: the text does not fit; nothing is written to `buffer`, and `length` is the number of bytes that it needs.
 * RNCV_MEMORY: out of memory, or a call for the document was. RNCV_MISUSE: no document of events is in progress. But for RNCV_SPACE `length` is then
 * unchanged. The document goes on in each case. The caller owns `buffer`. Only one thread at a time may use the handle. */
int32_t rncv_expected_tag(rncv_schema *schema, const uint8_t *uri, size_t uri_length, const uint8_t *local, size_t local_length, uint8_t *buffer, size_t size,
                          size_t *length);

/* Writes what a start of this name may have behind these `count` attributes in the document of events in progress, and what the value of an attribute named
 * `named_uri` and `named_local` may be there, as text, to `buffer`, which has `size` bytes, and the text's length to `length`. `named_uri` may be NULL if
 * `named_uri_length` is 0, and `named_local` if `named_local_length` is 0; the other arguments are as for rncv_events_start. If no continuation is valid, the
 * start is in place of the event after which none is: a caller that passes that start with the attributes before the one at fault, and its name as the one
 * asked for, gets what could have been there. The text has lines, as that of rncv_expected has. The first word of a line tells what it is about:
 *
 *     attribute CLASS            it may still have an attribute with one of these names
 *     required {URI}local        it still needs this attribute
 *     text                       the value may be any text, or one that a datatype, a value or a list takes
 *     value LIBRARY NAME TEXT    the value may be this text of this datatype
 *     datatype LIBRARY NAME ..   the value may be a text of this datatype, with these parameters
 *
 * It is told by what is left of the pattern behind the attributes: an attribute that came is gone, unless more of its class may come. An attribute counts where
 * its pattern is, as for rncv_expected_tag; it is required if what is left cannot be completed without it. Where alternatives exclude one another, the order of
 * the attributes counts. Costs what rncv_events_start costs, and a pass over what is left. The document goes on as before.
 *
 * RNCV_REFUSED: nothing is left behind these attributes, as rncv_events_start_reason tells. RNCV_MALFORMED: a text is not UTF-8. RNCV_SPACE: the text does not
 * fit; nothing is written to `buffer`, and `length` is the number of bytes that it needs. RNCV_MEMORY: out of memory, or a call for the document was; later
 * calls for it may return the same. RNCV_MISUSE: no document of events is in progress. But for RNCV_SPACE `length` is then unchanged. The caller owns `buffer`.
 * Only one thread at a time may use the handle. */
int32_t rncv_events_tag_options(rncv_schema *schema, const uint8_t *uri, size_t uri_length, const uint8_t *local, size_t local_length,
                                const rncv_attribute *attributes, size_t count, const uint8_t *named_uri, size_t named_uri_length, const uint8_t *named_local,
                                size_t named_local_length, uint8_t *buffer, size_t size, size_t *length);

/* Writes what may come in place of the text behind the last start or end of the document of events in progress, as rncv_expected writes it, to `buffer`. If no
 * continuation is valid, it is what could have come in place of the text before the event after which none is. If there is no such text, or a blank one, it is
 * what rncv_expected writes.
 *
 * The statuses, and the rules for the caller, are those of rncv_expected; RNCV_MISUSE: no document of events is in progress. */
int32_t rncv_expected_in_place(rncv_schema *schema, uint8_t *buffer, size_t size, size_t *length);

/* Writes the simple form of the schema, as text, to `buffer`, which has `size` bytes, and the text's length to `length`. The text does not end in
 * a zero. `buffer` may be NULL if `size` is 0. Each call prints the form again.
 *
 * RNCV_SPACE: the text does not fit; nothing is written to `buffer`, and `length` is the number of bytes that it needs. RNCV_MEMORY: out of memory.
 * RNCV_MISUSE: the handle holds no schema, or a document is in progress. After these two `length` is unchanged. The caller owns `buffer`. Only one
 * thread at a time may use the handle. */
int32_t rncv_simple(rncv_schema *schema, uint8_t *buffer, size_t size, size_t *length);

/* The title of a clause, in English: group 'S' with 1 to 27, or group 'P' with 1 to 13. NULL for any other. The text is constant, ends in a
 * zero, and is never freed. Any thread may call this at any time. */
const char *rncv_clause_title(char group, int32_t clause);

/* The version of the library that is loaded, RNCV_VERSION of the header that it was built with. If the library was built without proofs (`make try`),
 * " (not proved)" comes after it. The text is constant, ends in a zero, and is never freed. Any thread may call this at any time. */
const char *rncv_version(void);

#ifdef __cplusplus
}
#endif

#endif
