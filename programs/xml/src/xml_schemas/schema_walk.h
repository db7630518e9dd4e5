/* The tokens of a schema file in the compact syntax, with what each is for. The file is a sentence of the grammar (S2 to S8), as the library has judged. */
#ifndef SCHEMA_WALK_H
#define SCHEMA_WALK_H

#include "schema_tokens.h"

enum role {
    ROLE_PLAIN,
    ROLE_NOTE,           /* in an annotation */
    ROLE_ELEMENT_NAME,   /* in the name class of an element: a name, or `p:*` */
    ROLE_ATTRIBUTE_NAME,
    ROLE_TYPE,           /* a datatype with a prefix */
    ROLE_PREFIX          /* after `inherit =` */
};

struct walk_token {
    struct token token;
    enum role role;
};

struct declaration {
    struct span prefix;  /* empty: the default namespace */
    bool is_library;     /* of datatypes */
    bool is_inherit;
    struct bytes value;  /* the uri */
};

/* A `start` or a definition, from its first token up to the one at `end`. */
struct component {
    struct span name;    /* empty: the start */
    size_t first;
    size_t end;
    size_t grammar;      /* 0: of the file; else of a `grammar` in it */
    size_t include;      /* the mention in whose braces it is, plus 1; 0: in none */
    bool has_mention;    /* of a file, in its pattern */
};

/* An `include` or an `external`, from its word up to the token at `end`. */
struct mention {
    bool is_include;
    struct bytes words;
    size_t first;
    size_t named;        /* the token after the words */
    size_t end;
    size_t open;         /* the brace of the overriding components; 0: there is none */
    struct span prefix;  /* after `inherit =`; no data: there is none */
    size_t grammar;      /* that it is a component of, as in `component` */
    size_t depth;        /* of the brackets around it */
};

struct walk {
    struct tokens tokens;
    struct walk_token *list;
    struct declaration *declarations;
    struct component *components; /* in the order of their first tokens */
    struct mention *mentions;     /* the same */
    size_t count, capacity;
    size_t declaration_count, declaration_capacity;
    size_t component_count, component_capacity;
    size_t mention_count, mention_capacity;
    size_t body;         /* the first token after the declarations */
    size_t grammars;     /* that were met, the file included */
    size_t most_depth;   /* of brackets */
    bool is_grammar;     /* the body is components */
    bool has_context;    /* it has a value that a prefix may be in */
    bool is_odd;         /* it was not read to its end */
    bool failed;         /* out of memory */
    /* while it is read */
    size_t next;
    size_t depth;
};

/* False: it is odd, or memory ran out. Close it in either case. */
bool walk_open(struct walk *walk, const char *bytes, size_t length);
void walk_close(struct walk *walk);

#endif
