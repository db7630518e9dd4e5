/* The line of a document in which a fault is, as it is shown to people. */
#ifndef SOURCE_LINE_H
#define SOURCE_LINE_H

#include "fault.h"

/* Adds the line of the file with a mark below the column, both ended by a line feed. Adds nothing if there is no such line, the file is none that can be read
 * again, or the line is not UTF-8. */
void add_source_line(struct bytes *to, const char *path, struct place place);

#endif
