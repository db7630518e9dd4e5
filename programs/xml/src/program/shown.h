/* Texts as they are shown in a line. */
#ifndef SHOWN_H
#define SHOWN_H

#include "bytes.h"

/* Adds the text with its control characters and line separators written as `\n`, `\x85`, `\u2028` and the like, so that it stays on its line. Shows at most
 * `limit` characters. */
void add_shown(struct bytes *line, const char *text, size_t length, size_t limit);

#endif
