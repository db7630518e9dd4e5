/* What the library takes: a datatype of XML Schema with some parameters, or with a value. The library is asked by a schema of this one datatype, so that
 * hints about S12 follow what it judges, and need no reading of numbers, dates or patterns of their own. */
#ifndef SCHEMA_ASKED_H
#define SCHEMA_ASKED_H

#include "bytes.h"

#include <stdbool.h>
#include <stdint.h>

/* Begins a question, about the datatype of this name, or goes on with one, about another datatype too. */
void asked_begin(struct bytes *question, const char *type);
/* Adds a parameter, whose name is a word without escapes. */
void asked_add_param(struct bytes *question, struct span name, struct span text);
/* Whether the set of datatypes (enum rncv_datatypes) has the datatype with these parameters. True also if that cannot be found out, for lack of memory. The
 * question is freed. */
bool asked_is_taken(struct bytes *question, uint32_t datatypes);

/* Whether the set has each datatype of the question, with its parameters, and one of them allows the text. False also for lack of memory. The question is
 * freed. */
bool asked_takes(struct bytes *question, struct span text, uint32_t datatypes);

/* Whether a datatype of the set, without parameters, allows the value. True also for lack of memory. */
bool asked_allows(const char *type, struct span value, uint32_t datatypes);

#endif
