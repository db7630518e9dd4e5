/* Schemas of more files than the library takes: some are written into those that include them. An include of such a file becomes a `div` with its components,
 * without those that are overridden, and then the overriding ones (RELAX NG 4.7). Names of elements get prefixes there, since the namespaces are those of the
 * file. Nothing here is proved: the library gets the text that was written. */
#ifndef SCHEMA_MERGING_H
#define SCHEMA_MERGING_H

#include "schema_files.h"

/* Makes at most `most` files of the files that were collected, the first ones in the list, and sets `handed`. If a file breaks a clause from 1 to 8, or is not
 * there, it sets `judged` instead: the answer of the library if it took any number of files. False: the problem is noted, or memory ran out. */
bool schema_files_merge(struct schema_files *files, size_t most);

/* Writes a file with those that it includes and that are merged. Their own texts have no include. False: out of memory. */
bool merge_write(struct schema_files *files, const bool *is_merged, size_t index);

/* The index of the file that is handed in by this name: SIZE_MAX: none is. `is_twice`: there is another one. */
size_t file_of_name(const struct schema_files *files, const struct bytes *name, bool *is_twice);

#endif
