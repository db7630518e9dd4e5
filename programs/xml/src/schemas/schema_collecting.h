/* How the files of a schema are collected, as its parts share it. */
#ifndef SCHEMA_COLLECTING_H
#define SCHEMA_COLLECTING_H

#include "schema_files.h"

/* What the words of a mention were found to mean, and where the words are. */
struct meaning {
    struct bytes words;
    struct bytes file; /* empty: no file */
    size_t by;         /* the index of the file that mentions it */
};

struct collecting {
    struct schema_files *files;
    const struct schema_request *request;
    struct meaning *meanings;
    size_t count;
    size_t capacity;
    size_t mentions; /* that were looked up */
};

/* Notes that memory ran out. Always false. */
bool files_without_memory(struct schema_files *files);
/* Notes the first problem. */
void files_problem(struct schema_files *files, int status, const struct bytes *line);

/* Adds the path of a file, and makes room for the zero after it. The file `-` is no standard input. */
void add_path(struct bytes *to, const char *path);

/* Whether there are more files than the library takes. Then it says S2, whatever others are mentioned. */
bool files_are_too_many(const struct collecting *collecting);
/* Counts a mention in this file, so that the time to look them up is bounded. False: there are too many, and the problem is noted. */
bool count_mention(struct collecting *collecting, size_t by);

/* Finds the file that the words mean. There may be none. False: there is a problem. */
bool find_meaning(struct collecting *collecting, struct meaning *meaning);
bool keep_meaning(struct collecting *collecting, const struct meaning *meaning);
/* Notes where a missing file was looked for, if it is the first one. False: out of memory. */
bool keep_missing(struct collecting *collecting, const struct meaning *meaning, struct place place);

/* Adds the file that is mentioned, unless a file of that name is there. If the name of the main file means another file here, the main file gets a new
 * name. No file can mention that one, since it has a character that XML does not have. */
bool hand_in(struct collecting *collecting, struct meaning *meaning);

/* Replaces the name by a plain one for a copy of the file at the path, which ends in `.rnc` and which no file has yet. */
void add_flat_name(struct bytes *name, const struct schema_files *files, const char *path);

/* Replaces the content of a file in the XML syntax by what it is in the compact one, and takes what it mentions. False: there is a problem. */
bool take_xml(struct collecting *collecting, size_t index);

#endif
