/* Names of files: the paths that the words of a mention may mean. */
#ifndef PATHS_H
#define PATHS_H

#include "bytes.h"

/* Whether the bytes are UTF-8. */
bool is_utf_8(const char *bytes, size_t length);

/* Whether a file, and no folder or device, is at the path. */
bool is_file(const char *path);

/* Whether the words are a URI that is no file of this machine. */
bool is_remote(const struct bytes *words);

/* Whether both paths lead to the same thing, or neither leads to anything. */
bool is_same(const char *first, const char *second);

/* The ways in which the words of a mention may be a path beside the file at `path`: as they are written, and as a URI. There are at most two. The first
 * is empty if the file would have to be fetched. */
struct ways {
    struct bytes list[2];
    size_t count;
};

/* False: out of memory. */
bool ways_of(struct ways *ways, const struct bytes *words, const char *path);
void ways_free(struct ways *ways);

/* Adds the path without `.`, `..` and doubled slashes, as far as these can be left out of the text. */
void add_normal(struct bytes *normal, const char *path);

#endif
