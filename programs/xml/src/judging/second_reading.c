#include "second_reading.h"

#include "alone.h"
#include "contexts.h"
#include "text_table.h"

#include <stdlib.h>

enum {
    MOST_HELD = 67108864, /* the bytes that are held of the elements that are open */
    TOLD_OF_EACH = 16,    /* hints that are told for each one that is kept, at most */
    MOST_MEMBERS = 16     /* elements of the schema that an element may be; of one that may be more nothing is told */
};

struct second {
    struct judge whole;   /* judges an element with its attributes */
    struct judge content; /* judges it without, once that is wanted */
    struct alone_schemas *alone; /* their schemas */
    struct contexts contexts; /* of the schema */
    uint32_t members[MOST_MEMBERS]; /* what the element may be of which something is told */
    struct element *elements; /* the room for those that are open */
    uint32_t capacity;
    bool is_there;      /* elements can be judged, .. */
    bool has_content;   /* .. also without their attributes, .. */
    bool wants_content; /* .. if that was tried */
};

struct hint {
    struct answer answer;
    uint64_t owner; /* the number of the start of its element */
};

/* A document that is read once more. */
struct second_pass {
    struct fault *fault; /* of the reading */
    struct second *second;
    const struct answer *first; /* the fault that is known, .. */
    uint64_t first_number;      /* .. and the start or end at which it is */
    size_t depth;               /* how many elements are open */
    uint64_t number;            /* of starts and ends so far */
    size_t held;                /* the bytes of the open elements but the innermost */
    struct hint *hints;         /* in the order of their places */
    size_t count, most;
    const struct judge *judge; /* which has found the first fault */
    size_t told; /* how many were told, also of those that are not kept */
    uint32_t capacity;
};

/* ---- the judges */

/* Begins one of the judges. It has no schema yet. */
static void open_judge(struct judge *own, struct second *second, const struct judge *judge) {
    own->shared = judge->shared;
    own->form = &second->whole.declared;
}

/* Makes the judges, by the attributes of the schema itself. Where that fails they are not there. */
static struct second *new_second(struct judge *judge) {
    struct second *second = calloc(1, sizeof *second);
    if (second == NULL) {
        return NULL;
    }
    open_judge(&second->whole, second, judge);
    open_judge(&second->content, second, judge);
    second->alone = judge->shared->alone;
    second->is_there = declared_open(&second->whole.declared, &judge->schema) &&
                       alone_schemas_share(second->alone, &second->whole.declared, true, &second->whole.schema) &&
                       contexts_open(&second->contexts, &second->whole.declared);
    return second;
}

/* Makes the judge of elements without attributes, the first time. False: there is none. */
static bool has_content(struct second *second) {
    if (!second->wants_content) {
        second->wants_content = true;
        second->has_content = alone_schemas_share(second->alone, &second->whole.declared, false, &second->content.schema);
    }
    return second->has_content;
}

static void free_judge(struct judge *judge) {
    rncv_schema_free(&judge->schema);
    declared_close(&judge->declared);
    scope_free(&judge->scope);
    call_room_free(&judge->room);
}

void second_free(struct second *second) {
    if (second == NULL) {
        return;
    }
    if (second->contexts.declared != NULL) {
        contexts_close(&second->contexts);
    }
    free_judge(&second->whole);
    free_judge(&second->content);
    for (uint32_t at = 0; at < second->capacity; at++) {
        element_free(&second->elements[at]);
    }
    free(second->elements);
    free(second);
}

/* ---- hints */

static bool is_behind(struct place place, struct place other) {
    return place.line > other.line || (place.line == other.line && place.column > other.column);
}

/* Puts a hint behind those that are not behind it. If there are too many, the last one is dropped. */
static void put_hint(struct second_pass *pass, const struct hint *hint) {
    if (!items_grow((void **)&pass->hints, (uint32_t)pass->count, &pass->capacity, sizeof *pass->hints)) {
        struct answer lost = hint->answer;
        answer_free(&lost);
        return;
    }
    size_t at = pass->count++;
    while (at > 0 && is_behind(pass->hints[at - 1].answer.place, hint->answer.place)) {
        pass->hints[at] = pass->hints[at - 1];
        at--;
    }
    pass->hints[at] = *hint;
    if (pass->count > pass->most) {
        answer_free(&pass->hints[--pass->count].answer);
    }
}

/* Drops what was told of an element that is not allowed where it is: it may be another one, by a wrong name. */
static void drop_hints(struct second_pass *pass, uint64_t owner) {
    size_t kept = 0;
    for (size_t at = 0; at < pass->count; at++) {
        if (pass->hints[at].owner == owner) {
            answer_free(&pass->hints[at].answer);
        } else {
            pass->hints[kept++] = pass->hints[at];
        }
    }
    pass->count = kept;
}

/* Before which place hints are kept; line 0: at each place. */
static struct place limit_of(const struct second_pass *pass) {
    return pass->count == pass->most ? pass->hints[pass->count - 1].answer.place : (struct place){0, 0};
}

/* Takes what an element of the set may be, so that its attributes are looked for in these. */
static void take_members(struct second *second, uint32_t set) {
    uint32_t count = contexts_count(&second->contexts, set);
    for (uint32_t at = 0; at < count; at++) {
        second->members[at] = contexts_member(&second->contexts, set, at);
    }
    second->whole.declared.only = second->members;
    second->whole.declared.only_count = count;
}

/* Tells what is wrong at a start or end of the innermost element. */
static void add_hint(struct second_pass *pass, const struct alone *alone, uint64_t number) {
    const struct element *element = &alone->elements[alone->depth - 1];
    struct hint hint = {NO_ANSWER, element->number};
    take_members(pass->second, element->set);
    uint64_t child = alone_tell(alone, number, limit_of(pass), &hint.answer);
    bool is_told = hint.answer.place.line > 0 && !hint.answer.message.failed && !hint.answer.name.failed;
    pass->told += is_told;
    if (!is_told || is_behind(pass->first->place, hint.answer.place)) { /* what is before the first fault is the same one, told in another way */
        answer_free(&hint.answer);
        return;
    }
    if (child != 0) {
        drop_hints(pass, child);
    }
    put_hint(pass, &hint);
}

/* ---- the document */

/* Finds where the innermost element is at fault as each of the elements of the schema that it may be. `number` becomes 0 if it is good as one of them, else it
 * is the start or end that comes last, and `alone` has its element. False: that is not known. */
static bool find_fault(struct second_pass *pass, struct alone *alone, uint64_t *number) {
    const struct contexts *contexts = &pass->second->contexts;
    uint32_t set = alone->elements[alone->depth - 1].set;
    uint32_t count = contexts_count(contexts, set);
    uint32_t last = 0;
    bool is_known = count > 0 && count <= MOST_MEMBERS;
    bool is_good = false;
    *number = 0;
    for (uint32_t at = 0; at < count && is_known && !is_good; at++) {
        uint64_t found = 0;
        alone->member = contexts_member(contexts, set, at);
        is_known = alone_find(alone, &found);
        is_good = found == 0;
        last = found > *number ? alone->member : last;
        *number = is_good ? 0 : found > *number ? found : *number;
    }
    alone->member = last;
    return is_known;
}

/* Judges the content of the innermost element by itself, if its attributes are at fault. */
static void judge_content(struct second_pass *pass, struct alone *alone) {
    uint64_t number = 0;
    alone->judge = &pass->second->content;
    alone->has_attributes = false;
    if (has_content(pass->second) && find_fault(pass, alone, &number) && number > 1) {
        add_hint(pass, alone, number);
    }
}

/* Whether a hint about the element would not be kept. */
static bool is_too_late(const struct second_pass *pass, const struct element *element) {
    struct place limit = limit_of(pass);
    return pass->told / TOLD_OF_EACH >= pass->most || (limit.line > 0 && !is_behind(limit, element->place));
}

/* Judges the innermost element. Of one that the schema does not have, nothing is told. */
static void judge_element(struct second_pass *pass, struct place end) {
    const struct element *element = &pass->second->elements[pass->depth - 1];
    struct alone alone = {&pass->second->whole, pass->second->elements, pass->depth, end, 0, true};
    uint64_t number = 0;
    if (is_too_late(pass, element) || (element->is_left && element->is_done) || !find_fault(pass, &alone, &number) || number == 0) {
        return;
    }
    if (number == 1 && !element->is_left) {
        add_hint(pass, &alone, number);
    }
    if (number > 1 && !element->is_done) {
        add_hint(pass, &alone, number);
    } else if (number == 1 && !element->is_done) {
        judge_content(pass, &alone);
    }
}

/* Whether the fault that is known is one of the attributes of the start where it is. */
static bool is_of_attributes(const struct answer *first) {
    return first->reason == REASON_ATTRIBUTE || first->reason == REASON_ATTRIBUTE_VALUE || first->reason == REASON_MISSING;
}

/* Marks what the fault that is known is about, at its start. An element that is not allowed there may be another one, by a wrong name. */
static void mark_start(const struct second_pass *pass, struct element *around, struct element *own) {
    bool is_attributes = is_of_attributes(pass->first);
    bool is_element = pass->first->reason == REASON_ELEMENT;
    if (around != NULL && !is_attributes) {
        around->is_done = true;
    }
    own->is_left |= is_attributes || is_element;
    own->is_done |= is_element;
}

/* Finds what an element may be. Nothing is told of one that is not expected where it is: that is said where it is, or behind what is. */
static void find_context(struct second *second, const struct element *around, struct element *own, const struct event_name *name) {
    bool is_misplaced = false;
    if (!contexts_find(&second->contexts, around == NULL ? CONTEXT_START : around->set, name, &own->set, &is_misplaced)) {
        own->set = CONTEXT_UNKNOWN;
    }
    own->is_left = is_misplaced;
    own->is_done = is_misplaced;
}

static bool is_within_limits(const struct second_pass *pass) {
    const struct element *last = &pass->second->elements[pass->depth - 1];
    return !last->failed && pass->held + element_held(last) <= MOST_HELD;
}

/* Room for one more element. NULL: out of memory. */
static struct element *room_for(struct second *second, size_t depth) {
    bool has_room = items_grow((void **)&second->elements, (uint32_t)depth, &second->capacity, sizeof *second->elements);
    return has_room && second->elements != NULL ? &second->elements[depth] : NULL;
}

/* Ends the reading. */
static void stop(struct second_pass *pass) {
    fault_set(pass->fault, FAULT_STOPPED, (struct place){0, 0}, "stopped");
}

static void take_start(void *context, const struct start_event *start) {
    struct second_pass *pass = context;
    struct second *second = pass->second;
    struct mark mark = {start->place, ++pass->number};
    struct element *own = room_for(second, pass->depth);
    if (own == NULL) {
        stop(pass);
        return;
    }
    struct element *around = pass->depth == 0 ? NULL : &second->elements[pass->depth - 1];
    if (around != NULL) {
        element_take_child(around, start->name, mark);
        pass->held += element_held(around);
    }
    element_begin(own, start, mark);
    find_context(second, around, own, start->name);
    pass->depth++;
    if (pass->number == pass->first_number) {
        mark_start(pass, around, own);
    }
    if (!is_within_limits(pass) || (around != NULL && around->failed)) {
        stop(pass);
    }
}

static void take_text(void *context, struct place place, struct span text, bool is_blank) {
    struct second_pass *pass = context;
    if (pass->depth == 0) {
        return;
    }
    element_take_text(&pass->second->elements[pass->depth - 1], place, text, is_blank);
    if (!is_within_limits(pass)) {
        stop(pass);
    }
}

/* No fault is before the one that is known, so the elements before it need not be judged. */
static void take_end(void *context, struct place place, const struct event_name *name) {
    struct second_pass *pass = context;
    struct element *own = &pass->second->elements[pass->depth - 1];
    (void)name;
    own->is_done |= ++pass->number == pass->first_number;
    if (pass->number >= pass->first_number) {
        judge_element(pass, place);
    }
    pass->depth--;
    pass->held -= pass->depth == 0 ? 0 : element_held(own - 1);
}

static void take_instruction(void *context, struct place place, struct span target, struct span data) {
    struct second_pass *pass = context;
    (void)place;
    (void)target;
    (void)data;
    if (pass->depth > 0) {
        pass->second->elements[pass->depth - 1].is_empty = false;
    }
}

/* The notes are known. */
static void take_note(void *context, struct place place, const char *what) {
    (void)context;
    (void)place;
    (void)what;
}

static size_t held(const void *context) {
    const struct second_pass *pass = context;
    return pass->held + (pass->depth == 0 ? 0 : element_held(&pass->second->elements[pass->depth - 1]));
}

static void read_again(struct second_pass *pass, const struct shared *shared, const struct byte_source *source) {
    struct fault fault = NO_FAULT;
    struct event_sink sink = {.start = take_start,
                              .text = take_text,
                              .end = take_end,
                              .instruction = take_instruction,
                              .note = take_note,
                              .held = held,
                              .context = pass,
                              .checks_names = true,
                              .depth = shared->depth,
                              .memory = shared->memory,
                              .attributes = shared->attributes};
    pass->fault = &fault;
    read_events(source, &sink, &fault);
    fault_free(&fault);
}

/* Moves the hints to the answer. */
static void give_hints(struct second_pass *pass, struct answer *answer) {
    answer->hints = pass->count == 0 ? NULL : calloc(pass->count, sizeof *answer->hints);
    for (size_t at = 0; at < pass->count; at++) {
        if (answer->hints == NULL) {
            answer_free(&pass->hints[at].answer);
        } else {
            answer->hints[answer->hint_count++] = pass->hints[at].answer;
        }
    }
    free(pass->hints);
}

void second_reading(struct judge *judge, const struct byte_source *source, uint64_t number, struct answer *answer) {
    rncv_verdict verdict;
    rncv_events_finish(&judge->schema, &verdict); /* one may be in progress */
    if (judge->second == NULL) {
        judge->second = new_second(judge);
    }
    if (judge->second == NULL || !judge->second->is_there) {
        return;
    }
    struct second_pass pass = {.second = judge->second, .first = answer, .first_number = number, .most = judge->shared->most_faults - 1,
                               .judge = judge};
    read_again(&pass, judge->shared, source);
    give_hints(&pass, answer);
}
