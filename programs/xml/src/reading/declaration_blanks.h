/* Leaves out blanks of an XML declaration that has very many: all of it is held until its end has come. */
#ifndef DECLARATION_BLANKS_H
#define DECLARATION_BLANKS_H

#include "bytes.h"
#include "fault.h"

enum {
    KEPT_BLANKS = 4096, /* of a longer run, as spaces */
    MOST_RUNS = 10      /* runs of blanks that a declaration may have */
};

/* How a declaration is written: a character is so many bytes, of which the one at this place is its code in ASCII, and the others are zero. */
struct code_unit {
    size_t size;
    size_t place;
};

/* What a run has: its line ends, and its characters behind the last one. */
struct blank_run {
    uint64_t lines;
    uint64_t columns;
};

/* How far a declaration was looked at. Set it to zero, but for `looked`, before its first byte. */
struct declaration_blanks {
    size_t looked;        /* how many of the bytes that are left */
    bool has_end;         /* they have the end of the declaration */
    char last;            /* the last character */
    size_t length;        /* of the run that goes on there */
    bool is_long;         /* blanks of it are left out */
    struct blank_run run; /* what it has */
    struct blank_run runs[MOST_RUNS]; /* what the long ones have, .. */
    unsigned count;                   /* .. which are so many */
};

/* Looks at the bytes up to the end of the declaration, and leaves blanks out. */
void leave_out_blanks(struct declaration_blanks *blanks, struct bytes *bytes, struct code_unit unit);

/* The place behind the declaration that begins the text, of which blanks were left out, or else behind the text. It has so many bytes. */
struct place place_behind_declaration(const struct declaration_blanks *blanks, struct span text, size_t *length);

#endif
