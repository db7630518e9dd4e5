/* The files of a schema as one tree, for hints. The files are sentences of the grammar, since the library judges that first; for others there is no tree. */
#ifndef SCHEMA_TREE_H
#define SCHEMA_TREE_H

#include "schema_hints.h"
#include "schema_tokens.h"
#include "xml_names.h"

enum { MOST_TREE_FILES = 1024, FILE_WORDS = MOST_TREE_FILES / 64 };

#define NONE UINT32_MAX
#define INHERITED (UINT32_MAX - 1) /* a namespace: the one that the file inherits */

enum node_kind {
    NODE_NONE,
    /* patterns */
    NODE_ELEMENT,     /* text: its class as it is written; class; child: its body */
    NODE_ATTRIBUTE,   /* the same */
    NODE_LIST,
    NODE_MIXED,
    NODE_REF,         /* text: the name */
    NODE_PARENT_REF,
    NODE_EMPTY,
    NODE_TEXT,
    NODE_NOT_ALLOWED,
    NODE_VALUE,       /* text: the type as it is written, or nothing; other: the value */
    NODE_DATA,        /* text: the type; class: the parameters; child: the except */
    NODE_EXTERNAL,    /* text: the file; other: the prefix after `inherit` */
    NODE_GRAMMAR,     /* child: the components */
    NODE_GROUP,
    NODE_INTERLEAVE,
    NODE_CHOICE,
    NODE_PLUS,
    NODE_STAR,
    NODE_OPTIONAL,
    /* components */
    NODE_START,       /* child: the pattern */
    NODE_DEFINE,      /* text: the name; child: the pattern */
    NODE_DIV,
    NODE_INCLUDE,     /* text: the file; other: the prefix after `inherit`; child: the components in braces */
    /* others */
    NODE_PARAM,       /* text: the name; other: the value */
    CLASS_NAME,       /* text: the name as it is written */
    CLASS_NAMES,      /* text: `p:*`; child: the except */
    CLASS_ANY,        /* `*`; child: the except */
    CLASS_CHOICE
};

/* Nodes are named by their indexes. The index 0 is no node. */
struct node {
    struct span text;
    struct span other;
    uint32_t at;         /* where it begins, in the file's bytes */
    uint32_t child;      /* the first one */
    uint32_t next;       /* the next child of the same node */
    uint32_t class;
    uint32_t shape_of;   /* the scope for which `shape` is known, plus 1 */
    uint16_t file;
    uint8_t kind;
    uint8_t shape;
    char method;         /* of a component: = | & */
};

struct tree_file {
    const struct schema_hint_file *given;
    struct bytes blanked;     /* its text with blanks for annotations, of the same length */
    struct tokens tokens;
    struct bytes literals;    /* the literals' texts; it never moves */
    uint32_t components;      /* of a file that is no grammar: one start */
    uint32_t first;           /* a node for the place after the declarations */
    uint32_t default_namespace;
    uint64_t includes[FILE_WORDS]; /* the files that its grammar includes, as bits */
    bool is_read;
    bool is_grammar;
};

/* What a table has for up to three numbers and a text. */
struct key {
    uint32_t tag;
    uint32_t one;
    uint32_t two;
    uint32_t three;
    struct span text;
};

enum {
    KEY_FILE,      /* its name: its index */
    KEY_URI,       /* its text: its number */
    KEY_PREFIX,    /* one: file; a prefix: its namespace */
    KEY_LIBRARY,   /* one: file; a prefix of datatypes: its uri */
    KEY_OWN,       /* one: file; a name that its grammar has itself */
    KEY_OVERRIDE,  /* one: an include; a name that its braces have */
    KEY_OVERRIDES, /* one: an include whose overrides are in the table */
    KEY_SETTING,   /* one: file; two: inherited namespace: the index of the setting */
    KEY_SCOPE,     /* one: scope around; two: node or file; three: setting: the index of the scope */
    KEY_DEFINITION, /* one: scope; a name: the index of the definition */
    KEY_ELEMENT,   /* one: node; two: scope; three: setting of an element that is reached */
    KEY_NAME       /* one: namespace; a local name: the index of its last use */
};

struct entry {
    struct key key;
    uint32_t value;
    bool is_taken;
};

struct table {
    struct entry *entries;
    uint32_t count;
    uint32_t capacity;
};

struct tree {
    struct tree_file files[MOST_TREE_FILES];
    size_t file_count;
    struct node *nodes;
    uint32_t count;
    uint32_t capacity;
    uint32_t *mentions; /* the nodes of all includes and externals */
    uint32_t mention_count;
    uint32_t mention_capacity;
    struct table table;
    struct span *uris;
    uint32_t uri_count;
    uint32_t uri_capacity;
    uint64_t steps; /* how many are left; without one the tree fails */
    bool failed;
};

/* Reads the main file and the files that it mentions, directly or through others. False: there is no tree. Close it in each case. */
bool tree_open(struct tree *tree, const struct schema_hint_file *files, size_t count);
void tree_close(struct tree *tree);

/* Takes some steps. False: there are not so many. */
bool tree_step(struct tree *tree, uint64_t steps);

/* The value of a key, which is NONE at first; NULL: no memory. A pointer holds until the next call. */
uint32_t *tree_value(struct tree *tree, const struct key *key);
/* The same without a new entry: NONE if there is none. */
uint32_t tree_find(struct tree *tree, const struct key *key);

/* The number of a uri. The one of the empty uri is 0. */
uint32_t tree_uri(struct tree *tree, struct span uri);
uint32_t tree_file_of(struct tree *tree, struct span name);

/* Makes room for one more item in an array. False: no memory, or more than `most`. */
bool array_grow(struct tree *tree, void **items, uint32_t count, uint32_t *capacity, size_t size);

#endif
