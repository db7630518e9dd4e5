/* Writes a result in each of the formats. */
#ifndef FORMATS_H
#define FORMATS_H

#include "judging.h"

/* What is reported about a document, or about the schema. */
struct result {
    const char *file;
    const char *verdict; /* one word */
    const char *message; /* empty for a valid document */
    struct place place;  /* line 0: none */
    enum stands stands;
    const struct bytes *name; /* of what is at the place; may be NULL */
    char group;               /* of the clause; 0: there is none */
    int clause;
    bool is_note; /* it is no fault, or a hint */
    struct note *notes;
    size_t note_count;
    const char *schema_note; /* what the schema's file says about the schema; empty if that is nothing */
    const struct answer *answer; /* with what was expected; NULL: nothing was */
    const char *source;       /* the line of the document with a mark below; empty: it is not shown */
};

/* `FILE:LINE:COLUMN: MESSAGE`, with the line feed. */
void add_text(struct bytes *line, const struct result *result, bool has_color);

/* An object on a line of its own. */
void add_json(struct bytes *line, const struct result *result);

/* A command of GitHub's workflows. */
void add_github(struct bytes *line, const struct result *result);

/* A result of SARIF, and what comes before the first one and after the last one. `has_hints`: there may be hints. */
void add_sarif(struct bytes *line, const struct result *result, bool is_first);
void add_sarif_head(struct bytes *line, bool has_hints);
void add_sarif_tail(struct bytes *line, bool is_successful);

#endif
