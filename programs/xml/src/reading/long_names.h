/* Names that are too long for libxml2. It gets each with its first bytes, and a number in the place of the others, with a secret, so that no name of the
 * document itself has it. */
#ifndef LONG_NAMES_H
#define LONG_NAMES_H

#include "bytes.h"

#include <stdint.h>

#ifndef LONGEST_NAME
#define LONGEST_NAME 10000 /* bytes that libxml2 gets of a name as they are. It takes more, but it holds those of all attributes of a tag, and 1,000,000,000 at most */
#endif

enum { NUMBER_BYTES = 24 };

struct long_name;

/* Set it to zero. */
struct long_names {
    struct long_name *names; /* by number */
    uint32_t count;
    uint32_t capacity;
    uint32_t *places;        /* a table by hash: the number of a name, and one more; 0: none. Twice as many as there is room for names */
    size_t held; /* the bytes that they have */
    uint64_t secret[2];
};

void long_names_free(struct long_names *names);

/* Writes the number of a name, which is put in if it is new. The name's text is taken: free it no more. False: out of memory. */
bool long_names_put(struct long_names *names, struct bytes *name, char number[NUMBER_BYTES + 1]);

/* Puts a text in if it is new. It is taken too. What is kept stays where it is, and is there once. False: out of memory. */
bool long_names_keep(struct long_names *names, struct bytes *text, struct span *kept);

/* How many bytes libxml2 gets of a long name: whole characters. */
size_t long_name_kept(struct span name);

/* Adds a name as libxml2 has it: with a number if it is long and has none. False: out of memory. */
bool long_names_write(struct long_names *names, struct span name, struct bytes *to);

/* Whether the name, which libxml2 has, is short, or is one of these. */
bool long_names_have(const struct long_names *names, struct span name);

/* The whole name of such a one. Its text stays where it is. */
struct span long_names_whole(const struct long_names *names, struct span name);

#endif
