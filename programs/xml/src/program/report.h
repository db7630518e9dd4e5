/* Prints what is found in documents and in a schema, as text, JSON, SARIF, or commands of GitHub. */
#ifndef REPORT_H
#define REPORT_H

#include "judging.h"
#include "options.h"
#include "progress.h"

struct report {
    const struct options *options;
    struct output *output;
    struct progress *progress;
    const char *page; /* where the page about the clauses is */
    bool has_color;
    bool has_source; /* lines of documents are shown */
    bool has_begun; /* whether a result was printed */
    unsigned long long counts[VERDICT_FAILED + 1];
    int status; /* the greatest so far */
    struct bytes schema_note;
};

/* What is reported about the schema, and where in it. */
struct schema_fault {
    const char *path;
    struct place place; /* line 0: none */
    int clause;         /* S1 to S27; 0: none */
    const char *message;
    int status;
};

void report_open(struct report *report, const struct options *options, struct output *output, struct progress *progress);

/* Reports a document's answer. With several threads, the caller must let in one at a time. */
void report_answer(struct report *report, const char *name, struct answer *answer);
void report_schema(struct report *report, const struct schema_fault *fault);

/* Reports what the file of this name says about the schema. Each later answer has it too. */
void report_schema_note(struct report *report, const char *path, const struct bytes *note);

/* Reports what is not checked of documents, in a line of its own. Each later answer has it too. */
void report_unchecked(struct report *report, const char *path, const struct bytes *note);

/* Writes a line for people to standard error. */
void report_note(struct report *report, const char *line);

/* Ends what was begun, and writes what was collected. */
void report_close(struct report *report);

#endif
