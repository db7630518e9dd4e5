#include "library_calls.h"

#include <stdlib.h>

bool call_room_grow(struct call_room *room, size_t count) {
    rncv_attribute *longer = realloc(room->attributes, 2 * count * sizeof *longer);
    if (longer == NULL) {
        return false;
    }
    room->attributes = longer;
    room->capacity = 2 * count;
    return true;
}

void call_room_free(struct call_room *room) {
    free(room->attributes);
    *room = (struct call_room){NULL, 0};
}
