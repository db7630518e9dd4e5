#include "text_table.h"

#include "secret.h"

#include <stdlib.h>
#include <string.h>

enum { KEPT_SLOTS = 4096 }; /* a cleared table keeps no more: to clear them takes time for each document */

void text_table_open(struct text_table *table) {
    memset(table, 0, sizeof *table);
    choose_secret(table->secret);
}

void text_table_close(struct text_table *table) {
    bytes_free(&table->texts);
    free(table->places);
    free(table->slots);
    table->places = NULL;
    table->slots = NULL;
    table->slot_count = 0;
    table->count = 0;
    table->capacity = 0;
}

void text_table_clear(struct text_table *table) {
    if (table->failed || table->slot_count > KEPT_SLOTS) {
        text_table_close(table);
        table->failed = false;
    } else if (table->count > 0) {
        memset(table->slots, 0, table->slot_count * sizeof *table->slots);
    }
    table->count = 0;
    bytes_clear(&table->texts);
}

static uint64_t turned(uint64_t word, int bits) {
    return (word << bits) | (word >> (64 - bits));
}

/* One round of SipHash. */
static void mix(uint64_t state[4]) {
    state[0] += state[1];
    state[1] = turned(state[1], 13) ^ state[0];
    state[0] = turned(state[0], 32);
    state[2] += state[3];
    state[3] = turned(state[3], 16) ^ state[2];
    state[0] += state[3];
    state[3] = turned(state[3], 21) ^ state[0];
    state[2] += state[1];
    state[1] = turned(state[1], 17) ^ state[2];
    state[2] = turned(state[2], 32);
}

static void take_word(uint64_t state[4], uint64_t word) {
    state[3] ^= word;
    mix(state);
    state[0] ^= word;
}

/* SipHash-1-3. */
static uint64_t hash_of(const struct text_table *table, struct span text) {
    uint64_t state[4] = {table->secret[0] ^ 0x736f6d6570736575, table->secret[1] ^ 0x646f72616e646f6d, table->secret[0] ^ 0x6c7967656e657261,
                         table->secret[1] ^ 0x7465646279746573};
    size_t at = 0;
    for (; at + 8 <= text.length; at += 8) {
        uint64_t word;
        memcpy(&word, text.data + at, 8);
        take_word(state, word);
    }
    uint64_t last = (uint64_t)text.length << 56;
    if (at < text.length) {
        memcpy(&last, text.data + at, text.length - at);
        last ^= (uint64_t)text.length << 56;
    }
    take_word(state, last);
    state[2] ^= 0xFF;
    mix(state);
    mix(state);
    mix(state);
    return state[0] ^ state[1] ^ state[2] ^ state[3];
}

struct span text_table_text(const struct text_table *table, uint32_t number) {
    const struct text_place *place = &table->places[number];
    return (struct span){table->texts.data == NULL ? "" : table->texts.data + place->at, place->length};
}

/* The slot of a text, or the free one where it belongs. There is a free one. */
static size_t slot_of(const struct text_table *table, struct span text, uint64_t hash) {
    size_t mask = table->slot_count - 1;
    for (size_t at = (size_t)hash & mask;; at = (at + 1) & mask) {
        if (table->slots[at] == 0) {
            return at;
        }
        const struct text_place *place = &table->places[table->slots[at] - 1];
        if (place->hash == hash && place->length == text.length &&
            (text.length == 0 || memcmp(table->texts.data + place->at, text.data, text.length) == 0)) {
            return at;
        }
    }
}

/* Makes the slots twice as many, so that at most half of them are taken. */
static bool grow_slots(struct text_table *table) {
    size_t count = table->slot_count == 0 ? 64 : 2 * table->slot_count;
    uint32_t *slots = count > SIZE_MAX / 8 ? NULL : calloc(count, sizeof *slots);
    if (slots == NULL) {
        return false;
    }
    for (uint32_t number = 0; number < table->count; number++) {
        size_t at = (size_t)table->places[number].hash & (count - 1);
        while (slots[at] != 0) {
            at = (at + 1) & (count - 1);
        }
        slots[at] = number + 1;
    }
    free(table->slots);
    table->slots = slots;
    table->slot_count = count;
    return true;
}

bool items_grow(void **items, uint32_t count, uint32_t *capacity, size_t size) {
    if (count < *capacity) {
        return true;
    }
    uint32_t wanted = *capacity == 0 ? 16 : 2 * *capacity;
    void *larger = *capacity > UINT32_MAX / 4 ? NULL : realloc(*items, wanted * size);
    if (larger == NULL) {
        return false;
    }
    memset((char *)larger + *capacity * size, 0, (wanted - *capacity) * size);
    *items = larger;
    *capacity = wanted;
    return true;
}

uint32_t text_table_put(struct text_table *table, struct span text) {
    uint64_t hash = hash_of(table, text);
    if (2 * ((size_t)table->count + 1) > table->slot_count && !grow_slots(table)) {
        table->failed = true;
        return NO_TEXT;
    }
    size_t slot = slot_of(table, text, hash);
    if (table->slots[slot] != 0) {
        return table->slots[slot] - 1;
    }
    struct text_place place = {table->texts.length, text.length, hash};
    bytes_add(&table->texts, text.data, text.length);
    if (table->texts.failed || !items_grow((void **)&table->places, table->count, &table->capacity, sizeof *table->places)) {
        table->failed = true;
        return NO_TEXT;
    }
    table->places[table->count++] = place;
    table->slots[slot] = table->count;
    return table->count - 1;
}

uint32_t text_table_find(const struct text_table *table, struct span text) {
    return table->count == 0 ? NO_TEXT : table->slots[slot_of(table, text, hash_of(table, text))] - 1;
}

size_t text_table_held(const struct text_table *table) {
    return table->texts.capacity + table->capacity * sizeof *table->places + table->slot_count * sizeof *table->slots;
}
