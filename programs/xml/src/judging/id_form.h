/* The simple form of a schema, as it is read for ID-types. */
#ifndef ID_FORM_H
#define ID_FORM_H

#include "id_types.h"
#include "schema_tokens.h"

enum { NO_CLASS = 0 };

/* What is written where a pattern is mentioned. */
enum part_kind {
    PART_PLAIN, /* nothing with an ID-type: empty, text, notAllowed, or another datatype */
    PART_DATA,  /* a datatype or a value with an ID-type */
    PART_ELEMENT,
    PART_PATTERN
};

struct part {
    uint32_t number; /* of the element or the pattern */
    uint8_t kind;
    uint8_t type;  /* the ID-type */
    bool is_item;  /* the datatype of an item of IDREFS, which rncv-profile writes as a list */
    size_t from;   /* in the text */
    size_t to;
};

#define NO_PART {0, PART_PLAIN, ID_NONE, false, 0, 0}

/* What a line of the form says. */
enum line_kind { LINE_NONE, LINE_ELEMENT, LINE_ATTRIBUTE, LINE_LIST, LINE_REPETITION, LINE_JOINED, LINE_EXCEPT };

struct form_line {
    struct part one;
    struct part other;
    uint32_t class; /* of an element or an attribute */
    uint32_t seen;  /* when it was looked at last */
    uint8_t kind;
    char sign;      /* of a joined one */
    size_t from;    /* in the text: what is in the braces of an element or an attribute, and else what is after `=` */
    size_t to;
    size_t class_from; /* the class of an element or an attribute */
    size_t class_to;
};

enum class_kind { CLASS_ONE_NAME, CLASS_NAMESPACE, CLASS_ALL, CLASS_ONE_OF };

/* A name class. Classes have numbers from 1. */
struct form_class {
    struct span uri;
    struct span local;
    uint32_t child; /* the except, or the first member of a choice */
    uint32_t next;  /* the next member of the same choice */
    uint8_t kind;
};

struct form {
    struct tokens tokens;
    struct token token;   /* the next one */
    size_t length;        /* of the text */
    size_t from, to;      /* what was in braces last */
    size_t start;         /* where the line of the start is, after those of the namespaces */
    struct part root;     /* what is in it */
    struct bytes uris;    /* it never moves */
    struct span *prefixes; /* n0, n1, .. */
    struct form_line *elements;
    struct form_line *patterns;
    struct form_class *classes;
    uint32_t prefix_count, prefix_capacity;
    uint32_t element_count, element_capacity;
    uint32_t pattern_count, pattern_capacity;
    uint32_t class_count, class_capacity;
    uint64_t steps;  /* how many are left */
    bool is_marked;
    bool is_strange; /* this is no printed form, or there are no steps left */
    bool failed;     /* memory ran out */
};

/* False: it is strange, or memory ran out. Close it in each case. */
bool form_open(struct form *form, struct span text, bool is_marked);
void form_close(struct form *form);

/* Takes a step. False: there are none left. */
bool form_step(struct form *form);

/* Whether the class has the name. */
bool form_class_has(struct form *form, uint32_t class, struct span uri, struct span local);

#endif
