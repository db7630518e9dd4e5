/* Parts of values and of literals that libxml2 does not get. It gets a mark in the place of each, with a secret, so that no document has it itself. */
#ifndef LEFT_OUT_H
#define LEFT_OUT_H

#include "bytes.h"

#include <stdint.h>

enum { LEFT_OUT_MARK = 35 /* the bytes of a mark */ };

/* Parts whose numbers follow each other. */
struct left_parts {
    struct bytes *parts;
    uint32_t count;
    uint32_t capacity;
    uint32_t next; /* the number of the next one */
};

/* Set it to zero. */
struct left_out {
    struct left_parts passing; /* of a tag, or of the literal of an entity: they are written again when libxml2 has read that */
    struct left_parts lasting; /* of values by default, and texts of entities, whose marks libxml2 keeps */
    size_t held;               /* the bytes of all */
    uint64_t secret[2];
    bool has_secret;
};

void left_out_free(struct left_out *left);

/* Keeps a part, and writes its mark. The part is taken: free it no more. False: out of memory. */
bool left_out_put(struct left_out *left, bool is_lasting, struct bytes *part, char mark[LEFT_OUT_MARK + 1]);

/* Whether there are parts. */
static inline bool has_left_out(const struct left_out *left) {
    return left->passing.count + left->lasting.count > 0;
}

/* Whether the text has a mark. */
bool left_out_is_in(const struct left_out *left, struct span text);

/* The part whose mark is the text; NULL: it is none. */
const struct bytes *left_out_part(const struct left_out *left, struct span text);

/* The length of the text as a whole. */
size_t left_out_length(const struct left_out *left, struct span text);

/* Adds the text as a whole. */
void left_out_add(const struct left_out *left, struct span text, struct bytes *to);

/* Adds the text as a whole, with one space between its tokens. */
void left_out_add_tokens(const struct left_out *left, struct span text, struct bytes *to);

/* Leaves one space between the tokens of a text. Returns its length. */
size_t leave_tokens(char *text, size_t length);

/* Forgets the parts of a tag or a literal. */
void left_out_forget(struct left_out *left);

#endif
