#include "schema_datatypes.h"

#include "xml_names.h"

#include <stdlib.h>
#include <string.h>

/* The files that are reached, in the order of their mentions. */
struct reached {
    const struct schema_files *files;
    size_t *order;
    bool *is_there; /* in the order, for each file */
    size_t count;
};

static void reach(struct reached *reached, size_t index) {
    if (!reached->is_there[index]) {
        reached->is_there[index] = true;
        reached->order[reached->count++] = index;
    }
}

static void reach_named(struct reached *reached, struct span name) {
    for (size_t at = 0; at < reached->files->count; at++) {
        const struct schema_file *file = &reached->files->list[at];
        if (span_equal((struct span){file->name.data, file->name.length}, name)) {
            reach(reached, at);
            return;
        }
    }
}

/* Adds the files that a file mentions. False: out of memory. */
static bool reach_mentioned(struct reached *reached, size_t index) {
    const struct bytes *content = &reached->files->list[index].content;
    const uint8_t *bytes = (const uint8_t *)content->data;
    char *names = malloc(content->length + 1); /* they are never longer than the file */
    size_t needed = 0;
    rncv_fault fault;
    bool is_read = names != NULL && rncv_mentions(bytes, content->length, (uint8_t *)names, content->length, &needed, &fault) == RNCV_DONE;
    for (size_t at = 0, length; is_read && at < needed; at += length + 1) {
        length = strlen(names + at);
        reach_named(reached, (struct span){names + at, length});
    }
    free(names);
    return is_read;
}

/* Looks into one file. */
static bool find_in(const struct schema_files *files, size_t index, uint32_t datatypes, struct datatype_place *found) {
    const struct schema_file *file = &files->list[index];
    rncv_fault fault;
    if (rncv_datatype_place((const uint8_t *)file->content.data, file->content.length, datatypes, &fault) != RNCV_DONE) {
        return false;
    }
    fault.file = (int64_t)index;
    int64_t column = schema_files_column(files, &fault);
    struct place place = {(uint64_t)fault.line, column > 0 ? (uint64_t)column : 1};
    *found = (struct datatype_place){index, place_before(file->content.data, file->content.length, &file->origins, place)};
    return true;
}

bool schema_datatypes_find(const struct schema_files *files, uint32_t datatypes, struct datatype_place *found) {
    struct reached reached = {files, calloc(files->count, sizeof *reached.order), calloc(files->count, sizeof *reached.is_there), 0};
    bool is_good = files->count > 0 && reached.order != NULL && reached.is_there != NULL;
    bool is_found = false;
    if (is_good) {
        reach(&reached, 0);
    }
    for (size_t at = 0; is_good && !is_found && at < reached.count; at++) {
        is_found = find_in(files, reached.order[at], datatypes, found);
        is_good = reach_mentioned(&reached, reached.order[at]);
    }
    free(reached.order);
    free(reached.is_there);
    return is_found;
}
