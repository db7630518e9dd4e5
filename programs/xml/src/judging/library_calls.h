/* Passes events to the library. */
#ifndef LIBRARY_CALLS_H
#define LIBRARY_CALLS_H

#include "events.h"

#include <rncv.h>

/* Room for the attributes of a tag, as the library takes them. */
struct call_room {
    rncv_attribute *attributes;
    size_t capacity;
};

/* Makes room for so many attributes. False: out of memory. */
OUT_OF_LINE bool call_room_grow(struct call_room *room, size_t count);

static inline const uint8_t *bytes_of_span(struct span span) {
    return (const uint8_t *)span.data;
}

/* Fills the room with attributes as a parser has them. False: out of memory. */
static inline bool call_room_fill(struct call_room *room, const struct event_attribute *attributes, size_t count) {
    if (count > room->capacity && !call_room_grow(room, count)) {
        return false;
    }
    rncv_attribute *to = room->attributes;
    for (const struct event_attribute *from = attributes; from < attributes + count; from++, to++) {
        *to = (rncv_attribute){bytes_of_span(from->name.uri), from->name.uri.length, bytes_of_span(from->name.local), from->name.local.length,
                               bytes_of_span(from->value), from->value.length};
    }
    return true;
}

/* Passes a start, with this number as its place. The status is that of rncv_events_start. */
static inline int32_t library_tag(rncv_schema *schema, uint64_t place, const struct event_name *name, const rncv_attribute *attributes, size_t count) {
    return rncv_events_start(schema, place, bytes_of_span(name->uri), name->uri.length, bytes_of_span(name->local), name->local.length, attributes, count);
}

/* Does the same with the attributes as a parser has them. RNCV_MEMORY: also if there is no room for them. */
static inline int32_t library_start(rncv_schema *schema, struct call_room *room, uint64_t place, const struct event_name *name,
                                    const struct event_attribute *attributes, size_t count) {
    return call_room_fill(room, attributes, count) ? library_tag(schema, place, name, room->attributes, count) : RNCV_MEMORY;
}

/* Asks why nothing can follow a start. The status is that of rncv_events_start_reason. */
static inline int32_t library_start_reason(rncv_schema *schema, const struct event_name *name, const rncv_attribute *attributes, size_t count,
                                           rncv_reason *reason) {
    return rncv_events_start_reason(schema, bytes_of_span(name->uri), name->uri.length, bytes_of_span(name->local), name->local.length, attributes, count,
                                    reason);
}

/* Asks what a start may have behind some attributes, and what the value of the attribute with the other name may be there. The status, and the text that is
 * written to `buffer`, are those of rncv_events_tag_options. */
static inline int32_t library_tag_options(rncv_schema *schema, const struct event_name *name, const rncv_attribute *attributes, size_t count,
                                          const struct event_name *named, struct bytes *buffer, size_t *length) {
    return rncv_events_tag_options(schema, bytes_of_span(name->uri), name->uri.length, bytes_of_span(name->local), name->local.length, attributes, count,
                                   bytes_of_span(named->uri), named->uri.length, bytes_of_span(named->local), named->local.length, (uint8_t *)buffer->data,
                                   buffer->capacity, length);
}

static inline int32_t library_text(rncv_schema *schema, struct span text) {
    return rncv_events_text(schema, (const uint8_t *)text.data, text.length);
}

void call_room_free(struct call_room *room);

#endif
