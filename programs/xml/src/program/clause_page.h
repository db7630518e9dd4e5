/* Where the page about the clauses is. */
#ifndef CLAUSE_PAGE_H
#define CLAUSE_PAGE_H

#include <stddef.h>

/* In a checkout. */
#define CLAUSE_PAGE "docs/use/CLAUSES.md"

/* The path of the page that was installed with this program, in `room`; CLAUSE_PAGE if there is none, or if its path has more than `size` bytes. */
const char *find_clause_page(char *room, size_t size);

#endif
