/* Leaves out choices of attributes that are declared as `(one|two)` or `NOTATION (one|two)`. libxml2 compares each with all before, and keeps all. Here they
 * mean nothing: only the kind of the attribute does.
 *
 * Of a long list libxml2 gets the beginning. What it does not get goes on as the productions 58 and 59 of XML 1.0 have it. From a character on that breaks
 * these it gets the text again, so that it finds the fault at its place. */
#ifndef CHOICES_H
#define CHOICES_H

#include "bytes.h"

#ifndef LIST_KEPT
#define LIST_KEPT 300 /* bytes of a list that libxml2 always gets. It asks for more when it has read all but 250, so it is in the list then */
#endif

/* What was read last of a list. */
enum list_part {
    LIST_OPENED, /* the bracket or a bar, and blanks: a choice comes */
    LIST_CHOICE, /* a part of a choice, which may go on */
    LIST_BEHIND  /* blanks behind a choice */
};

/* How far a declaration of attributes was read. Set it to zero before the first one. */
struct choice_scan {
    char quote;            /* of the literal that is being read; 0: none */
    unsigned words;        /* that were begun: two before the kind of an attribute, for the name of the element and that of the attribute */
    size_t word_length;    /* of the last one, .. */
    size_t matched;        /* .. of which so many bytes are as in `NOTATION` */
    bool is_in_word;
    bool is_in_list;
    bool is_of_names;      /* the list is one of notations, which are names */
    bool is_over;          /* nothing of the list is left out any more */
    size_t given;          /* the bytes behind its bracket that libxml2 has got */
    enum list_part begun;  /* what was last before what is left out, .. */
    enum list_part part;   /* .. and in it */
};

/* Takes a byte of the declaration that libxml2 gets. False: the declaration ends with it, or refers to a parameter entity. */
bool choices_take(struct choice_scan *scan, char byte);

/* How many of the next bytes libxml2 may get at once, of which it asks for `most`, so that it gets little of a list before it asks again. */
size_t choices_most(const struct choice_scan *scan, struct span next, size_t most);

/* Whether libxml2 has so much of a list that others may be left out. */
static inline bool choices_are_enough(const struct choice_scan *scan) {
    return scan->is_in_list && !scan->is_over && scan->given >= LIST_KEPT;
}

/* Begins to leave out choices behind the text, which are the bytes of the list that libxml2 has got. False: they break the productions. */
bool choices_begin(struct choice_scan *scan, struct span given);

/* Leaves out what goes on with the list at the start of the text. Returns its length. */
size_t choices_leave_out(struct choice_scan *scan, struct span text);

/* Nothing more is left out. Returns what libxml2 gets in the place. */
const char *choices_close(struct choice_scan *scan);

/* Writes blanks in the place of choices in a text of declarations, in which `at` is behind those that libxml2 is to get. Returns how many bytes; 0: there are
 * none, or the list breaks the productions, and is as it was. */
size_t choices_blank_out(struct choice_scan *scan, char *text, size_t length, size_t at);

#endif
