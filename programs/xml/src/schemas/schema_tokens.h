/* How a schema's file is written, and its tokens in the compact syntax, as far as they are needed to find the files that it mentions. */
#ifndef SCHEMA_TOKENS_H
#define SCHEMA_TOKENS_H

#include "bytes.h"

#include <stdint.h>

enum writing {
    WRITING_COMPACT,    /* as far as the first bytes say */
    WRITING_UTF_16,
    WRITING_XML,
    WRITING_RELAX_NG,   /* the XML syntax of RELAX NG */
    WRITING_XML_SCHEMA  /* W3C XML Schema */
};

/* The length of the byte order mark of UTF-8 at the start; 0 if there is none. */
size_t mark_length(const char *bytes, size_t length);

/* Finds out how a file is written from its first bytes, and from the namespace of the root if it is XML. False: out of memory. */
bool writing_of(const char *bytes, size_t length, enum writing *writing);

enum token_kind {
    TOKEN_NONE, /* the end, or something that is no token: the library says which */
    TOKEN_WORD, /* a keyword or an identifier */
    TOKEN_NAME, /* never a keyword: a quoted identifier, or a name with a prefix */
    TOKEN_LITERAL,
    TOKEN_SIGN
};

struct token {
    enum token_kind kind;
    struct span text; /* for a literal, what is between its quotes */
    size_t at;        /* where it begins, in the file's bytes */
    size_t end;       /* where it ends */
};

struct tokens {
    struct bytes text; /* the file's text with its escapes replaced */
    size_t *origins;   /* where in the file each byte of the text, and its end, comes from; NULL: there is no escape */
    size_t next;
};

/* Whether the bytes are UTF-8 of characters of XML, also those that escapes stand for, as clauses S3 and S4 ask for. */
bool is_text(const char *bytes, size_t length);

/* False: out of memory. */
bool tokens_open(struct tokens *tokens, const char *bytes, size_t length);
struct token tokens_next(struct tokens *tokens);
void tokens_close(struct tokens *tokens);

/* Adds the value of a literal to `text`. */
void add_literal(struct bytes *text, const struct token *token);

/* Writes a text as a literal of the compact syntax. Escapes are replaced before a literal ends at its quote, so a quote is in other quotes. */
void write_literal(struct bytes *to, struct span text);

bool is_word(const struct token *token, const char *word);
bool is_sign(const struct token *token, char sign);
bool has_colon(const struct token *token);
bool is_identifier(const struct token *token); /* a word that is no keyword, or a quoted identifier */
bool is_names(const struct token *token);      /* `p:*` */
bool is_name(const struct token *token);       /* one of an element or an attribute: a keyword, an identifier or a name with a prefix */

#endif
