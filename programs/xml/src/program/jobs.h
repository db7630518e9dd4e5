/* Judges documents side by side, and reports them in their order. */
#ifndef JOBS_H
#define JOBS_H

#include "documents.h"
#include "report.h"

/* Judges all documents by several threads, or by the calling thread alone. False: out of memory. */
bool jobs_run(struct documents *documents, struct shared *shared, struct report *report, unsigned threads);

#endif
