/* Numbers for texts: 0 for the first one, 1 for the next new one, and so on. It is a hash table with a secret of its own, so nobody can choose texts that
 * make it slow. */
#ifndef TEXT_TABLE_H
#define TEXT_TABLE_H

#include "bytes.h"

#include <stdint.h>

#define NO_TEXT UINT32_MAX

/* Where a text is among the texts. */
struct text_place {
    size_t at;
    size_t length;
    uint64_t hash;
};

struct text_table {
    struct bytes texts;
    struct text_place *places; /* by number */
    uint32_t *slots;           /* a number plus 1; 0: free */
    size_t slot_count;
    uint32_t count;
    uint32_t capacity;
    uint64_t secret[2];
    bool failed; /* memory ran out */
};

void text_table_open(struct text_table *table);
void text_table_close(struct text_table *table);

/* Forgets all texts. */
void text_table_clear(struct text_table *table);

/* The number of the text, which is put in if it is new. NO_TEXT: out of memory. */
uint32_t text_table_put(struct text_table *table, struct span text);

/* The number of the text; NO_TEXT: it is not there. */
uint32_t text_table_find(const struct text_table *table, struct span text);

/* The text of a number. It moves when a text is put in. */
struct span text_table_text(const struct text_table *table, uint32_t number);

/* How many bytes the table has. */
size_t text_table_held(const struct text_table *table);

/* Makes room for one more item in an array that has an item for each of `count` numbers. The new room is zero. False: out of memory. */
bool items_grow(void **items, uint32_t count, uint32_t *capacity, size_t size);

#endif
