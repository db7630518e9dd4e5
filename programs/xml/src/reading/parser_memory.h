/* The memory of libxml2 while a document is converted.
 *
 * libxml2 goes on after some failures to get memory, and leaves something out. So each failure is noted, and ends the conversion. It also loses some
 * blocks where a document is malformed. So those that it has not freed at the end of the conversion are freed. */
#ifndef PARSER_MEMORY_H
#define PARSER_MEMORY_H

#include <stdbool.h>
#include <stddef.h>

/* A block, and how many bytes it has. */
struct parser_block {
    void *block;
    size_t size;
};

/* The blocks that a conversion has, in a table by hash. */
struct parser_memory {
    struct parser_block *slots;
    size_t capacity; /* a power of two, or 0 */
    size_t count;
    size_t held; /* the bytes of all blocks */
    bool is_open;
    bool has_failed; /* memory ran out */
    struct parser_memory *outer; /* of the conversion in whose pause this one began */
};

/* Prepares libxml2 for the process and for this thread. It can be called again, and from several threads. False: memory ran out. */
bool parser_memory_prepare(void);

/* Begins a conversion in this thread. */
void parser_memory_begin(struct parser_memory *memory);

/* What libxml2 takes in this thread during a pause is of no conversion. */
void parser_memory_pause(bool is_paused);

/* How many bytes libxml2 has of this thread's conversion. */
size_t parser_memory_held(void);

/* Ends the conversion: frees what libxml2 still has of it. */
void parser_memory_end(struct parser_memory *memory);

#endif
