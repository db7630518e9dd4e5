/* What is told of an error of libxml2, in words that do not depend on its version where the error is a common one. */
#ifndef PARSER_WORDS_H
#define PARSER_WORDS_H

#include "bytes.h"

#include <libxml/parser.h>

typedef xmlError parser_error;

/* Whether it is an error of validity, which is no error here. */
bool is_of_validity(parser_error *error);

/* Whether the error makes the document malformed: it breaks XML 1.0, or Namespaces in XML in a way that is not found by the names of tags. */
bool is_malformed(parser_error *error);

/* Whether it is about a group of a content model that begins in one text and ends in another. */
bool is_about_group(const parser_error *error);

/* Whether libxml2 does not go on at something that XML allows. */
bool is_limit(parser_error *error);
const char *limit_words(parser_error *error);

/* Ends the reading at a fault of a comment. For each further one libxml2 would copy what it has of the comment. */
void stop_in_comment(parser_error *error);

/* Adds what the error says. */
void add_words(struct bytes *line, parser_error *error);

#endif
