#include "near.h"

#include "xml_names.h"

enum { MOST_CHARACTERS = 64, MOST_CHANGES = 2 };

/* The code points of a name. More than MOST_CHARACTERS: it has too many. */
static size_t characters_of(struct span name, uint32_t codes[MOST_CHARACTERS]) {
    size_t count = 0;
    size_t size = 1;
    for (size_t at = 0; at < name.length; at += size) {
        uint32_t code = code_point(name, at, &size);
        if (count == MOST_CHARACTERS) {
            return MOST_CHARACTERS + 1;
        }
        codes[count++] = code;
    }
    return count;
}

static size_t least(size_t one, size_t other) {
    return one < other ? one : other;
}

size_t distance_of(struct span name, struct span other) {
    uint32_t codes[MOST_CHARACTERS];
    uint32_t others[MOST_CHARACTERS];
    size_t row[MOST_CHARACTERS + 1];
    size_t count = characters_of(name, codes);
    size_t other_count = characters_of(other, others);
    if (count > MOST_CHARACTERS || other_count > MOST_CHARACTERS) {
        return NOT_NEAR;
    }
    for (size_t to = 0; to <= other_count; to++) {
        row[to] = to;
    }
    for (size_t from = 0; from < count; from++) {
        size_t before = row[0];
        row[0] = from + 1;
        for (size_t to = 0; to < other_count; to++) {
            size_t changed = before + (codes[from] != others[to]);
            before = row[to + 1];
            row[to + 1] = least(changed, least(row[to], row[to + 1]) + 1);
        }
    }
    return row[other_count] <= MOST_CHANGES && 2 * row[other_count] < count ? row[other_count] : NOT_NEAR;
}
