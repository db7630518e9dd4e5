#include "parser_memory.h"

#include <libxml/globals.h>
#include <libxml/parser.h>
#include <libxml/threads.h>
#include <pthread.h>
#include <stdint.h>
#include <stdlib.h>
#include <string.h>

static _Thread_local struct parser_memory *current = NULL; /* that of this thread's conversion */
static pthread_once_t is_prepared = PTHREAD_ONCE_INIT;
static bool preparation_failed = false;

static size_t slot_of(uintptr_t block) {
    uint64_t hash = (uint64_t)block * UINT64_C(0x9E3779B97F4A7C15);
    return (size_t)(hash >> 32) & (current->capacity - 1);
}

/* Puts a block into a table with room for it. */
static void put(struct parser_block block) {
    size_t at = slot_of((uintptr_t)block.block);
    while (current->slots[at].block != NULL) {
        at = (at + 1) & (current->capacity - 1);
    }
    current->slots[at] = block;
}

static bool grow(void) {
    struct parser_block *old = current->slots;
    size_t old_capacity = current->capacity;
    size_t capacity = old_capacity == 0 ? 64 : 2 * old_capacity;
    struct parser_block *slots = calloc(capacity, sizeof *slots);
    if (slots == NULL) {
        return false;
    }
    current->slots = slots;
    current->capacity = capacity;
    for (size_t at = 0; at < old_capacity; at++) {
        if (old[at].block != NULL) {
            put(old[at]);
        }
    }
    free(old);
    return true;
}

/* Takes a block into the table, and notes it if there is none. False: there is no block, or no room in the table. */
static bool take(void *block, size_t size) {
    if (current == NULL || !current->is_open) {
        return block != NULL;
    }
    if (block == NULL || (2 * (current->count + 1) > current->capacity && !grow())) {
        current->has_failed = true;
        return false;
    }
    put((struct parser_block){block, size});
    current->count++;
    current->held += size;
    return true;
}

/* Takes a new block, which nothing would free if it were not in the table. */
static void *taken(void *block, size_t size) {
    bool is_taken = take(block, size);
    if (!is_taken) {
        free(block);
    }
    return is_taken ? block : NULL;
}

/* Takes the block at this slot out of the table, and moves those behind it to where they are looked for. */
static void empty(size_t hole) {
    const struct parser_block none = {NULL, 0};
    size_t at = hole;
    current->held -= current->slots[hole].size;
    current->slots[hole] = none;
    current->count--;
    while (current->slots[at = (at + 1) & (current->capacity - 1)].block != NULL) {
        size_t wanted = slot_of((uintptr_t)current->slots[at].block);
        if (((at - wanted) & (current->capacity - 1)) >= ((at - hole) & (current->capacity - 1))) {
            current->slots[hole] = current->slots[at];
            current->slots[at] = none;
            hole = at;
        }
    }
}

/* The slot of a block; NULL: it is not in the table. One that another user of libxml2 has made is not. */
static struct parser_block *slot_with(uintptr_t block) {
    if (current == NULL || current->count == 0 || block == 0) {
        return NULL;
    }
    size_t at = slot_of(block);
    while (current->slots[at].block != NULL && (uintptr_t)current->slots[at].block != block) {
        at = (at + 1) & (current->capacity - 1);
    }
    return current->slots[at].block == NULL ? NULL : &current->slots[at];
}

/* Lets a block go, if it is in the table. */
static void let_go(uintptr_t block) {
    const struct parser_block *slot = slot_with(block);
    if (slot != NULL) {
        empty((size_t)(slot - current->slots));
    }
}

static void *allocate(size_t size) {
    return taken(malloc(size), size);
}

/* If it fails, the block stays, and stays in the table. */
static void *resize(void *block, size_t size) {
    uintptr_t old = (uintptr_t)block;
    void *larger = realloc(block, size);
    if (larger == NULL) {
        take(NULL, 0);
    } else if ((uintptr_t)larger != old) {
        let_go(old);
        take(larger, size);
    } else {
        struct parser_block *slot = slot_with(old);
        if (slot != NULL) {
            current->held += size - slot->size;
            slot->size = size;
        }
    }
    return larger;
}

static char *copy(const char *text) {
    return taken(strdup(text), strlen(text) + 1);
}

static void release(void *block) {
    let_go((uintptr_t)block);
    free(block);
}

static void ignore(void *context, xmlError *error) {
    (void)context;
    (void)error;
}

/* The functions for memory stay those of the process if it has set its own. */
static void prepare(void) {
    struct parser_memory memory = {NULL, 0, 0, 0, true, false, NULL};
    xmlFreeFunc old_free;
    xmlMallocFunc old_allocate;
    xmlReallocFunc old_resize;
    xmlStrdupFunc old_copy;
    if (xmlMemGet(&old_free, &old_allocate, &old_resize, &old_copy) == 0 && old_allocate == malloc && old_free == free) {
        xmlMemSetup(release, allocate, resize, copy);
    }
    xmlStructuredErrorFunc old_report = xmlStructuredError;
    void *old_context = xmlStructuredErrorContext;
    xmlSetStructuredErrorFunc(NULL, ignore);
    current = &memory;
    xmlInitParser();
    current = NULL;
    xmlSetStructuredErrorFunc(old_context, old_report);
    preparation_failed = memory.has_failed;
    free(memory.slots); /* what it took stays with the process */
}

/* libxml2 has values for each thread but the first that used it. It makes them where it needs them, and crashes if there is no memory for them. So they are
 * made here. To report that there is none, libxml2 needs these values too, and tries again without an end. So the block is taken and freed before: malloc
 * gives a thread the block of this size that it has freed last. */
static bool prepare_thread(void) {
    if (xmlIsMainThread()) {
        return true;
    }
    void *volatile room = malloc(sizeof(xmlGlobalState)); /* volatile: the compiler may leave out a block that nothing uses */
    if (room == NULL) {
        return false;
    }
    free(room);
    return xmlGetGlobalState() != NULL;
}

bool parser_memory_prepare(void) {
    return pthread_once(&is_prepared, prepare) == 0 && !preparation_failed && prepare_thread();
}

void parser_memory_begin(struct parser_memory *memory) {
    xmlResetLastError(); /* so that what it keeps in this thread is of no conversion */
    *memory = (struct parser_memory){NULL, 0, 0, 0, true, false, current};
    current = memory;
}

void parser_memory_pause(bool is_paused) {
    if (current != NULL) {
        current->is_open = !is_paused;
    }
}

size_t parser_memory_held(void) {
    return current == NULL ? 0 : current->held;
}

void parser_memory_end(struct parser_memory *memory) {
    xmlResetLastError();
    current = memory->outer;
    for (size_t at = 0; at < memory->capacity; at++) {
        free(memory->slots[at].block);
    }
    free(memory->slots);
    memory->slots = NULL;
}
