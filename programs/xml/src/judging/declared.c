#include "declared.h"

#include "schema_ids.h"
#include "xml_names.h"

#include <stdlib.h>

enum { SEARCH_STEPS = 5000000 };

bool declared_open(struct declared *declared, rncv_schema *schema) {
    size_t length = 0;
    if (declared->is_tried) {
        return declared->is_there;
    }
    declared->is_tried = true;
    if (schema_form(schema, &declared->text, &length) != RNCV_DONE) {
        return false;
    }
    declared->is_there = form_open(&declared->form, (struct span){(const char *)declared->text, length}, false);
    if (!declared->is_there) {
        form_close(&declared->form);
    }
    return declared->is_there;
}

void declared_close(struct declared *declared) {
    if (declared->is_there) {
        form_close(&declared->form);
    }
    free(declared->text);
}

/* Begins a search, which has its own steps. */
static void begin_search(struct declared *declared) {
    declared->form.steps = SEARCH_STEPS;
    declared->form.is_strange = false;
    declared->time++;
}

/* The patterns that are still to be looked at. */
struct waiting {
    uint32_t *numbers;
    uint32_t count, capacity;
    bool failed;
};

/* Adds a pattern that was not looked at in this search. */
static void await(struct declared *declared, struct waiting *waiting, struct part part) {
    struct form_line *line = part.kind == PART_PATTERN ? &declared->form.patterns[part.number] : NULL;
    if (line == NULL || line->seen / 2 == declared->time || waiting->failed) {
        return;
    }
    line->seen = 2 * declared->time;
    waiting->failed = !items_grow((void **)&waiting->numbers, waiting->count, &waiting->capacity, sizeof *waiting->numbers);
    if (!waiting->failed) {
        waiting->numbers[waiting->count++] = part.number;
    }
}

static void add_number(struct waiting *waiting, struct declared_list *list, uint32_t number) {
    waiting->failed |= !items_grow((void **)&list->numbers, list->count, &list->capacity, sizeof *list->numbers);
    if (!waiting->failed) {
        list->numbers[list->count++] = number;
    }
}

/* Adds an element to a list, or awaits a pattern. */
static void mention(struct declared *declared, struct part part, struct waiting *waiting, struct declared_list *list) {
    struct form_line *line = part.kind == PART_ELEMENT ? &declared->form.elements[part.number] : NULL;
    if (line == NULL) {
        await(declared, waiting, part);
    } else if (line->seen / 2 != declared->time) {
        line->seen = 2 * declared->time;
        add_number(waiting, list, part.number);
    }
}

void declared_elements(struct declared *declared, struct part part, struct declared_list *list) {
    struct waiting waiting = {NULL, 0, 0, false};
    memset(list, 0, sizeof *list);
    begin_search(declared);
    mention(declared, part, &waiting, list);
    while (waiting.count > 0 && !waiting.failed && form_step(&declared->form)) {
        const struct form_line line = declared->form.patterns[waiting.numbers[--waiting.count]];
        if (line.kind == LINE_JOINED || line.kind == LINE_REPETITION) {
            mention(declared, line.one, &waiting, list);
            mention(declared, line.other, &waiting, list);
        }
    }
    list->is_known = !waiting.failed && !declared->form.is_strange;
    free(waiting.numbers);
}

void declared_list_free(struct declared_list *list) {
    free(list->numbers);
}
