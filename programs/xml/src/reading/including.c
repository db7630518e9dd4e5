#include "including.h"

#include <libxml/tree.h>

static bool is_in_subset(const struct feed *feed) {
    return feed->parser->inSubset != 0;
}

/* Takes back what libxml2 has got and not read. It gets it again. */
static void take_back(struct feed *feed) {
    xmlParserInputPtr input = feed->parser->input;
    xmlParserInputBufferPtr buffer = input->buf;
    bool is_parted = feed->parting > 0 && feed->parted_at > feed_offset(feed);
    feed->given -= (size_t)(input->end - input->cur) - (is_parted ? feed->parting : 0);
    feed->parting = is_parted ? 0 : feed->parting;
    input->consumed += (unsigned long)(input->cur - input->base);
    xmlBufShrink(buffer->buffer, xmlBufUse(buffer->buffer));
    input->base = xmlBufContent(buffer->buffer);
    input->cur = input->base;
    input->end = input->base;
    feed->taken_back = input->consumed;
    buffer->context = feed;
    buffer->readcallback = feed_read;
}

/* Forgets what was found out of what libxml2 gets again: it is outside of other markup. */
static void look_again(struct feed *feed) {
    feed->markup = 0;
    feed->plain_to = 0;
    feed->section = (struct section){0};
    feed->scan = (struct tag_scan){0};
    shortening_look_again(&feed->shortening);
    if (is_in_subset(feed)) {
        models_look_again(&feed->models);
    }
}

/* How far the offset is behind where a text is included; 0: it is before that. Then it is where it was, and else where the text begins. */
static uint64_t taken_back(uint64_t *offset, uint64_t begin) {
    uint64_t behind = *offset > begin ? *offset - begin : 0;
    *offset -= behind;
    return behind;
}

/* Keeps for later what libxml2 has not got. */
static void keep_later(struct feed *feed, uint64_t begin, struct included_text *text) {
    bytes_add(&text->later, feed->text.data + feed->given, feed->text.length - feed->given);
    feed->text.length = feed->given;
    text->looked = taken_back(&feed->references.looked, begin);
    text->searched = taken_back(&feed->references.searched, begin);
}

void feed_include(struct feed *feed, const void *entity, struct span text, struct bytes *own) {
    bool is_parameter = is_in_subset(feed);
    uint64_t begin = feed_offset(feed);
    struct place place = feed_place(feed, feed_last(feed, begin, is_parameter ? "%" : "&"));
    struct included_text included = {.rest = text, .own = *own, .is_parameter = is_parameter};
    *own = (struct bytes)NO_BYTES;
    take_back(feed);
    if (feed->begin + feed->given != begin) { /* libxml2 had less of what is behind the reference: nothing may make that so */
        fault_set(feed->fault, FAULT_OUTSIDE, place, "over a limit of this program: shortened markup behind a long entity");
    }
    keep_later(feed, begin, &included);
    feed->plain_to = 0; /* it was found in what comes later now */
    feed_move(feed, begin);
    look_again(feed);
    feed->included(feed->context);
    if (!inclusions_open(&feed->inclusions, (struct inclusion){.entity = entity, .depth = *feed->depth}, &included,
                         (struct included_part){begin, UINT64_MAX, place})) {
        fault_set(feed->fault, FAULT_MEMORY, (struct place){0, 0}, "out of memory");
        bytes_free(&included.own);
        bytes_free(&included.later);
    }
}

bool feed_read_included(struct feed *feed) {
    struct included_text ended;
    uint64_t later = 0;
    if (inclusions_read(&feed->inclusions, &feed->text, feed->begin, &ended, &later)) {
        feed->references.looked = ended.looked > 0 ? later + ended.looked : feed->references.looked;
        feed->references.searched = ended.searched > 0 ? later + ended.searched : feed->references.searched;
    }
    if (feed->text.failed) {
        fault_set(feed->fault, FAULT_MEMORY, (struct place){0, 0}, "out of memory");
    }
    return !feed->text.failed;
}

void feed_refuse_unbalanced(struct feed *feed) {
    struct place place = feed_place(feed, feed_offset(feed) - 1);
    fault_set(feed->fault, FAULT_MALFORMED, place,
              "malformed XML: the text of an entity is not balanced: what begins in it does not end in it, or the other way around");
}

void feed_end_inclusion(struct feed *feed) {
    if (feed->inclusions.count == 0 || !feed_is_read(feed) || *feed->depth != inclusion_depth(&feed->inclusions)) {
        feed_refuse_unbalanced(feed);
        return;
    }
    inclusions_close(&feed->inclusions, feed_offset(feed));
    feed_move(feed, feed_offset(feed));
}

void feed_check_inclusion(struct feed *feed) {
    if (feed->inclusions.count > 0 && feed_is_read(feed) && feed_offset(feed) > inclusion_end(&feed->inclusions)) {
        feed_refuse_unbalanced(feed);
    }
}
