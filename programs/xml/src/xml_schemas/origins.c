#include "origins.h"

#include <stdlib.h>

bool origins_add(struct origins *origins, size_t at, struct place place) {
    if (origins->count == origins->capacity) {
        size_t capacity = origins->capacity == 0 ? 64 : 2 * origins->capacity;
        struct origin *list = realloc(origins->list, capacity * sizeof *list);
        if (list == NULL) {
            return false;
        }
        origins->list = list;
        origins->capacity = capacity;
    }
    origins->list[origins->count++] = (struct origin){at, place};
    return true;
}

void origins_free(struct origins *origins) {
    free(origins->list);
    *origins = (struct origins){NULL, 0, 0};
}

/* Moves the place behind the byte. */
static struct place behind(struct place place, const char *text, size_t length, size_t at) {
    char byte = text[at];
    bool ends = byte == '\n' || (byte == '\r' && (at + 1 >= length || text[at + 1] != '\n'));
    place.line += ends;
    place.column = ends ? 1 : place.column + (((unsigned char)byte & 0xC0) != 0x80);
    return place;
}

/* The last origin that is at the byte or before it. */
static struct place origin_of(const struct origins *origins, size_t at) {
    size_t low = 0;
    size_t high = origins->count;
    while (high - low > 1) {
        size_t middle = low + (high - low) / 2;
        if (origins->list[middle].at <= at) {
            low = middle;
        } else {
            high = middle;
        }
    }
    return origins->list[low].place;
}

struct place place_at(const char *text, size_t length, const struct origins *origins, size_t at) {
    struct place place = {1, 1};
    if (origins != NULL && origins->count > 0) {
        return origin_of(origins, at);
    }
    for (size_t byte = 0; byte < at && byte < length; byte++) {
        place = behind(place, text, length, byte);
    }
    return place;
}

struct place place_before(const char *text, size_t length, const struct origins *origins, struct place wanted) {
    struct place place = {1, 1};
    if (origins == NULL || origins->count == 0) {
        return wanted;
    }
    for (size_t byte = 0; byte < length; byte++) {
        bool is_there = place.line > wanted.line || (place.line == wanted.line && place.column >= wanted.column);
        if (is_there) {
            return origin_of(origins, byte);
        }
        place = behind(place, text, length, byte);
    }
    return origin_of(origins, length);
}
