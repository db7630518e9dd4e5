#include "long_names.h"

#include "secret.h"

#include <inttypes.h>
#include <stdio.h>
#include <stdlib.h>

struct long_name {
    struct bytes text;
    uint64_t hash;
};

void long_names_free(struct long_names *names) {
    for (uint32_t at = 0; at < names->count; at++) {
        bytes_free(&names->names[at].text);
    }
    free(names->names);
    free(names->places);
}

/* The hash of a text. It begins with a secret, so that nobody can write many texts with one hash. */
static uint64_t hash_of(const struct long_names *names, struct span text) {
    uint64_t hash = names->secret[1] ^ text.length;
    for (size_t at = 0; at < text.length; at++) {
        hash = (hash ^ (unsigned char)text.data[at]) * UINT64_C(0x100000001B3);
    }
    return hash;
}

static struct span text_of(const struct long_name *name) {
    return (struct span){name->text.data, name->text.length};
}

static bool is_equal(const struct long_name *one, const struct long_name *other) {
    return one->hash == other->hash && one->text.length == other->text.length && memcmp(one->text.data, other->text.data, one->text.length) == 0;
}

/* The place in the table for the name. */
static uint32_t *place_of(const struct long_names *names, const struct long_name *name) {
    size_t last = 2 * (size_t)names->capacity - 1;
    size_t at = (size_t)(name->hash ^ name->hash >> 32) & last;
    while (names->places[at] != 0 && !is_equal(&names->names[names->places[at] - 1], name)) {
        at = (at + 1) & last;
    }
    return &names->places[at];
}

/* Makes room for twice as many names. False: out of memory. */
static bool grow(struct long_names *names) {
    uint32_t wanted = names->capacity == 0 ? 4 : 2 * names->capacity;
    bool is_possible = wanted > names->capacity && 2 * (size_t)wanted <= SIZE_MAX / sizeof *names->names;
    struct long_name *longer = is_possible ? realloc(names->names, wanted * sizeof *longer) : NULL;
    names->names = longer == NULL ? names->names : longer;
    uint32_t *places = longer == NULL ? NULL : calloc(2 * (size_t)wanted, sizeof *places);
    if (places == NULL) {
        return false;
    }
    free(names->places);
    names->places = places;
    names->capacity = wanted;
    for (uint32_t at = 0; at < names->count; at++) {
        *place_of(names, &names->names[at]) = at + 1;
    }
    return true;
}

static void write_number(const struct long_names *names, uint32_t index, char number[NUMBER_BYTES + 1]) {
    snprintf(number, NUMBER_BYTES + 1, "%08" PRIx32 "%016" PRIx64, index, names->secret[0]);
}

/* Puts a text in if it is new. Returns its place in the table; NULL: out of memory. */
static const uint32_t *put(struct long_names *names, struct bytes *text) {
    if (text->failed || (names->count == names->capacity && !grow(names))) {
        return NULL;
    }
    if (names->count == 0) {
        choose_secret(names->secret);
    }
    struct long_name new = {*text, hash_of(names, (struct span){text->data, text->length})};
    uint32_t *place = place_of(names, &new);
    *text = (struct bytes)NO_BYTES;
    if (*place == 0) {
        names->held += new.text.capacity;
        names->names[names->count++] = new;
        *place = names->count;
    } else {
        bytes_free(&new.text);
    }
    return place;
}

bool long_names_put(struct long_names *names, struct bytes *name, char number[NUMBER_BYTES + 1]) {
    const uint32_t *place = put(names, name);
    if (place != NULL) {
        write_number(names, *place - 1, number);
    }
    return place != NULL;
}

bool long_names_keep(struct long_names *names, struct bytes *text, struct span *kept) {
    const uint32_t *place = put(names, text);
    *kept = place == NULL ? (struct span){"", 0} : text_of(&names->names[*place - 1]);
    return place != NULL;
}

size_t long_name_kept(struct span name) {
    size_t kept = LONGEST_NAME;
    while (((unsigned char)name.data[kept] & 0xC0) == 0x80) {
        kept--;
    }
    return kept;
}

/* The long name of which libxml2 has this; NULL: there is none. */
static const struct long_name *found(const struct long_names *names, struct span name) {
    char number[NUMBER_BYTES + 1] = "";
    char index[9] = "";
    if (name.length <= LONGEST_NAME || name.length > LONGEST_NAME + NUMBER_BYTES) {
        return NULL;
    }
    size_t kept = name.length - NUMBER_BYTES;
    memcpy(index, name.data + kept, sizeof index - 1);
    unsigned long place = strtoul(index, NULL, 16);
    if (place >= names->count) {
        return NULL;
    }
    write_number(names, (uint32_t)place, number);
    const struct long_name *one = &names->names[place];
    bool is_one = memcmp(number, name.data + kept, NUMBER_BYTES) == 0 && memcmp(one->text.data, name.data, kept) == 0;
    return is_one ? one : NULL;
}

bool long_names_have(const struct long_names *names, struct span name) {
    return name.length <= LONGEST_NAME || found(names, name) != NULL;
}

struct span long_names_whole(const struct long_names *names, struct span name) {
    const struct long_name *one = found(names, name);
    return one == NULL ? name : text_of(one);
}

bool long_names_write(struct long_names *names, struct span name, struct bytes *to) {
    char number[NUMBER_BYTES + 1] = "";
    struct bytes whole = NO_BYTES;
    size_t kept = long_names_have(names, name) ? name.length : long_name_kept(name);
    bytes_add(to, name.data, kept);
    if (kept < name.length) {
        bytes_add(&whole, name.data, name.length);
        to->failed |= !long_names_put(names, &whole, number);
        bytes_add_text(to, number);
    }
    bytes_free(&whole);
    return !to->failed;
}
