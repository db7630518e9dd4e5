/* A search for a hint, as its parts share it. */
#ifndef SCHEMA_HINTING_H
#define SCHEMA_HINTING_H

#include "schema_grammars.h"

struct hinting {
    struct grammars grammars;
    int clause;
    bool is_of_profile; /* the datatypes are those of the profile, and not those of the larger set */
    uint32_t node;      /* the place; 0: none is known */
    struct bytes text;  /* the sentence */
};

/* Begins the hint about a node. False: there is one already, and the first one counts. */
bool hint_begins(struct hinting *hinting, uint32_t node);
const struct node *hint_node(const struct hinting *hinting, uint32_t node);

/* Adds a part of a schema to the sentence, on one line and cut if it is long. */
void add_part(struct hinting *hinting, struct span part);
/* Adds what a node is, such as "attribute x". */
void add_title(struct hinting *hinting, uint32_t node);
/* Adds where another node is, seen from the place of the hint. */
void add_other(struct hinting *hinting, uint32_t other);

/* What single nodes break (S11, S12), in schema_words.c. The spot is in some component. */
void judge_names(struct hinting *hinting, struct spot spot);
void judge_type(struct hinting *hinting, struct spot spot);

/* The namespace of a name as it is written in a class, and its local part. */
uint32_t name_of(struct hinting *hinting, uint32_t setting, bool is_attribute, struct span *name);

/* What is broken once references are followed (S16, S18 to S27), in schema_restrictions.c. */
void judge_restrictions(struct hinting *hinting);

#endif
