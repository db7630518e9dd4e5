#include "judging.h"

#include "finding.h"
#include "second_reading.h"
#include "telling.h"

#include <inttypes.h>
#include <stdlib.h>
#include <string.h>

enum {
    MOST_NOTES = 100,
    MOST_STEPS = 32, /* starts and ends after which the library is asked whether something valid can follow */
    TEXT_BYTES = 512 /* kept of a text: enough for what is shown of it */
};

/* What a gap is. One store sets all of it. */
struct gap_is {
    bool text : 1;
    bool tag : 1;    /* the start tag before: nothing comes behind it */
    bool cut : 1;    /* no more of the text is kept */
    bool begun : 1;  /* what is kept of it begins with a character that is no blank */
    bool untold : 1; /* the text is blank and kept, and the library has not been told of it */
};

/* What is directly before a start or an end: a text, the start tag before, or neither. */
struct gap {
    struct place place; /* of the text, or the tag */
    size_t kept_at; /* where the text begins in the judge's `text`, .. */
    size_t kept;    /* .. and how many bytes are there */
    struct gap_is is;
};

/* A start or an end. The library is not asked after each one. So what is told if nothing valid can follow it is kept. */
struct step {
    struct gap gap; /* before it */
    struct place place;
    struct event_name name;
    size_t depth; /* of a start: how many elements are open then; 0: it is an end */
};

/* A document that is being judged. */
struct judging {
    struct judge *judge;
    struct source source;
    struct answer *answer;
    struct fault *fault;
    struct finding found; /* where the document is invalid, if that is known */
    rncv_verdict verdict;
    uint64_t number; /* of the starts and ends that were passed: it is the place of the last one for the library */
    struct step steps[MOST_STEPS + 1]; /* those that the library was not asked about, .. */
    struct step *next; /* .. and the one that comes next */
    size_t open;         /* how many elements are open before the first of them */
    const struct start_event *start; /* the start that was passed last, if it is at hand; else NULL */
    size_t usual_depth; /* a start that is deeper is a usual one: no scope has ended before it, the document is valid so far, and has no IDs */
    bool has_ids;    /* IDs are checked */
    bool is_usual;   /* the document is valid so far, and has no IDs */
    bool is_behind_start; /* the last start or end was a start */
    bool has_begun; /* a byte of the document was read, and this is the first one */
    char first;
};

bool judge_open(struct judge *judge, struct shared *shared) {
    memset(judge, 0, sizeof *judge);
    judge->shared = shared;
    id_check_open(&judge->ids, shared->ids);
    return rncv_schema_share(&shared->schema, &judge->schema) == RNCV_DONE && rncv_schema_share(&shared->schema, &judge->asked) == RNCV_DONE;
}

void judge_close(struct judge *judge) {
    rncv_schema_free(&judge->schema);
    rncv_schema_free(&judge->asked);
    declared_close(&judge->declared);
    scope_free(&judge->scope);
    call_room_free(&judge->room);
    bytes_free(&judge->text);
    id_check_close(&judge->ids);
    second_free(judge->second);
}

static void hints_free(struct answer *answer) {
    for (size_t at = 0; at < answer->hint_count; at++) {
        answer_free(&answer->hints[at]);
    }
    free(answer->hints);
    answer->hints = NULL;
    answer->hint_count = 0;
}

void answer_free(struct answer *answer) {
    bytes_free(&answer->name);
    bytes_free(&answer->message);
    bytes_free(&answer->expected);
    bytes_free(&answer->attribute);
    bytes_free(&answer->datatype);
    bytes_free(&answer->token);
    for (size_t at = 0; at < answer->note_count; at++) {
        bytes_free(&answer->notes[at].what);
    }
    free(answer->notes);
    hints_free(answer);
    if (answer->earlier != NULL) {
        answer_free(answer->earlier);
        free(answer->earlier);
    }
}

const char *reason_word(enum reason reason) {
    static const char *const words[] = {"",                 "element-not-allowed", "attribute-not-allowed", "attribute-value", "attributes-missing",
                                        "text-not-allowed", "text-value",          "incomplete"};
    return words[reason];
}

int status_of(enum verdict verdict) {
    switch (verdict) {
    case VERDICT_VALID:
        return STATUS_VALID;
    case VERDICT_INVALID:
        return STATUS_INVALID;
    case VERDICT_MALFORMED:
    case VERDICT_OUTSIDE:
        return STATUS_MALFORMED;
    default:
        return STATUS_FAILED;
    }
}

static OUT_OF_LINE void out_of_memory(struct judging *judging) {
    fault_set(judging->fault, FAULT_MEMORY, (struct place){0, 0}, "out of memory");
}

/* The library has not taken an event. What comes from a parser breaks no clause, if its names do not, and these were checked. */
static OUT_OF_LINE void is_not_taken(struct judging *judging, int32_t status) {
    if (status == RNCV_MALFORMED) {
        fault_set(judging->fault, FAULT_DEVICE, (struct place){0, 0}, "the library refuses what libxml2 has read");
    }
    out_of_memory(judging);
}

static size_t blanks_of(struct span text) {
    size_t at = 0;
    while (at < text.length && (text.data[at] == ' ' || text.data[at] == '\t' || text.data[at] == '\n' || text.data[at] == '\r')) {
        at++;
    }
    return at;
}

static struct span kept_text(const struct judging *judging, const struct gap *gap) {
    bool is_there = gap->is.text && gap->kept > 0;
    return is_there ? (struct span){judging->judge->text.data + gap->kept_at, gap->kept} : (struct span){"", 0};
}

/* Drops the blanks before what is kept of a text. Nothing is kept behind it. */
static inline void drop_blanks(struct judging *judging, struct gap *gap) {
    struct bytes *kept = &judging->judge->text;
    if (gap->is.begun || gap->kept == 0) {
        return;
    }
    size_t blanks = blanks_of(kept_text(judging, gap));
    if (blanks > 0) {
        memmove(kept->data + gap->kept_at, kept->data + gap->kept_at + blanks, gap->kept - blanks);
        gap->kept -= blanks;
        kept->length -= blanks;
    }
    gap->is.begun = gap->kept > 0;
}

static inline void add_kept(struct judging *judging, struct gap *gap, struct span text) {
    struct bytes *kept = &judging->judge->text;
    size_t before = kept->length;
    bytes_add(kept, text.data, text.length);
    gap->kept += kept->length - before;
}

/* Keeps what there is room for of a text that is too long to be kept. It begins with a character that is no blank. No character is cut. */
static OUT_OF_LINE void keep_beginning(struct judging *judging, struct gap *gap, struct span text) {
    drop_blanks(judging, gap);
    size_t begin = gap->is.begun ? 0 : blanks_of(text);
    size_t length = text.length - begin;
    gap->is.begun = gap->is.begun || length > 0;
    if (length > TEXT_BYTES - gap->kept) {
        gap->is.cut = true;
        length = TEXT_BYTES - gap->kept;
        while (length > 0 && ((unsigned char)text.data[begin + length] & 0xC0) == 0x80) {
            length--;
        }
    }
    add_kept(judging, gap, (struct span){text.data + begin, length});
}

/* Keeps the beginning of a text. Most are short, and no character of theirs is looked at. */
static inline void keep_text(struct judging *judging, struct gap *gap, struct span text) {
    if (gap->is.cut) {
        return;
    }
    if (text.length <= TEXT_BYTES - gap->kept) {
        add_kept(judging, gap, text);
    } else {
        keep_beginning(judging, gap, text);
    }
}

/* Notes a text before the start or end after which nothing valid can follow. What is kept of the texts behind it is needed no more. */
static void note_text(struct judging *judging, struct gap *gap) {
    struct finding *found = &judging->found;
    struct bytes *kept = &judging->judge->text;
    kept->length = kept_text(judging, gap).length > 0 ? gap->kept_at + gap->kept : 0;
    drop_blanks(judging, gap);
    struct span text = kept_text(judging, gap);
    found->has_text = text.length > 0;
    found->is_cut = gap->is.cut;
    bytes_add(&found->text, text.data, text.length);
}

/* How many elements are open at a step, with its own. */
static size_t depth_of(const struct judging *judging, const struct step *step) {
    size_t open = judging->open;
    for (const struct step *at = judging->steps; at < step; at++) {
        open = at->depth > 0 ? at->depth : open - 1;
    }
    return step->depth > 0 ? step->depth : open;
}

/* Notes the name of the element that a start is in. It is still open, or a later step is its end. */
static void note_around(struct judging *judging, const struct step *start) {
    size_t open = start->depth;
    for (const struct step *step = start + 1; step < judging->next; step++) {
        if (step->depth == 0 && open < start->depth) {
            add_written(&judging->found.around, &step->name);
            return;
        }
        open = step->depth > 0 ? step->depth : open - 1;
    }
    if (start->depth > 1 && start->depth - 1 <= MOST_NAMED) {
        const struct open_name *name = &judging->judge->open[start->depth - 2];
        add_written(&judging->found.around, &(struct event_name){name->prefix, name->local, {"", 0}});
    }
}

/* Notes what is at the start or end after which nothing valid can follow. A fault of an element without content is reported where its tag begins. Only the last
 * step may have attributes: the library is asked at once after a start that has some. */
static bool note_finding(struct judging *judging, struct step *step) {
    struct judge *judge = judging->judge;
    struct finding *found = &judging->found;
    const struct start_event *start = step + 1 == judging->next ? judging->start : NULL;
    size_t depth = depth_of(judging, step);
    found->is_end = step->depth == 0;
    if (step->gap.is.text || step->gap.is.tag) {
        found->text_place = step->gap.place;
    }
    if (step->gap.is.text) {
        note_text(judging, &step->gap);
    }
    found->place = found->is_end && step->gap.is.tag ? found->text_place : step->place;
    finding_name(found, &step->name);
    if (!found->is_end) {
        note_around(judging, step);
    }
    bool is_told = finding_ask(found, &judge->schema, &judge->room, start == NULL ? NULL : start->attributes, start == NULL ? 0 : start->attribute_count);
    scope_keep(&judge->scope, !found->is_end && finding_is_text(found) ? depth - 1 : depth);
    return is_told && !found->text.failed && !found->around.failed && !judge->text.failed;
}

/* Begins again with the step that comes next. */
static void begin_steps(struct judging *judging) {
    struct bytes *kept = &judging->judge->text;
    struct step *first = &judging->steps[0];
    const struct step *last = judging->next;
    size_t ends = 0;
    while (last > first && last[-1].depth == 0) {
        last--;
        ends++;
    }
    judging->open = (last > first ? last[-1].depth : judging->open) - ends;
    *first = *judging->next;
    bytes_cut_front(kept, kept_text(judging, &first->gap).length > 0 ? first->gap.kept_at : kept->length);
    first->gap.kept_at = 0;
    judging->next = first;
}

/* Looks whether nothing valid can follow one of the starts and ends that were passed. What the library says of it does not change with later ones. */
static void look(struct judging *judging) {
    uint64_t since = 0;
    size_t passed = (size_t)(judging->next - judging->steps);
    if (passed == 0 || judging->found.is_there) {
        return;
    }
    if (rncv_events_invalid_since(&judging->judge->schema, &since) != RNCV_DONE) {
        out_of_memory(judging);
        return;
    }
    if (since == 0) {
        begin_steps(judging);
        return;
    }
    uint64_t before = judging->number - passed;
    judging->is_usual = false;
    judging->usual_depth = SIZE_MAX;
    judging->found.is_there = true;
    judging->found.is_lost = since <= before || since > judging->number; /* the place of another one is not known */
    judging->judge->found_number = judging->found.is_lost ? 0 : since;
    if (!judging->found.is_lost && !note_finding(judging, &judging->steps[since - before - 1])) {
        out_of_memory(judging);
    }
}

/* Tells the library of a blank text. */
static OUT_OF_LINE void tell_blanks(struct judging *judging) {
    struct gap *gap = &judging->next->gap;
    gap->is.untold = false;
    library_text(&judging->judge->schema, kept_text(judging, gap));
}

/* Looks at the last steps. */
static void take_last(void *context) {
    look(context);
}

/* There is room for one more step. */
static inline bool has_room(const struct judging *judging) {
    return judging->next < judging->steps + MOST_STEPS;
}

/* Ends the step of a start or an end, and begins the next one. */
static inline void end_step(struct judging *judging, struct place place, const struct event_name *name, size_t depth, bool is_end) {
    struct step *step = judging->next++;
    step->place = place;
    step->name = *name;
    step->depth = depth;
    judging->next->gap.place = place;
    judging->next->gap.is = (struct gap_is){.tag = !is_end};
    judging->is_behind_start = !is_end;
}

/* Passes a start to the library. False: it is not taken. */
static OUT_OF_LINE bool pass_start(struct judging *judging, const struct start_event *start) {
    struct judge *judge = judging->judge;
    int32_t status = library_start(&judge->schema, &judge->room, ++judging->number, start->name, start->attributes, start->attribute_count);
    if (status != RNCV_DONE) {
        is_not_taken(judging, status);
    }
    return status == RNCV_DONE;
}

/* Passes a start with attributes, and asks at once whether something valid can follow it: if not, the library is asked why, with the attributes. */
static OUT_OF_LINE void pass_attributes(struct judging *judging, const struct start_event *start) {
    uint64_t since = 0;
    bool is_taken = pass_start(judging, start);
    if (is_taken && (rncv_events_invalid_since(&judging->judge->schema, &since) != RNCV_DONE || since != 0)) {
        judging->start = start;
        look(judging);
        judging->start = NULL;
    }
}

/* Keeps the name of an element that starts, so far as there is room. */
static inline void enter(struct judging *judging, const struct start_event *start) {
    if (start->depth <= MOST_NAMED) {
        judging->judge->open[start->depth - 1] = (struct open_name){start->name->prefix, start->name->local};
    }
}

/* Does the same for any element, and takes the namespaces that it declares. */
static void enter_any(struct judging *judging, const struct start_event *start) {
    struct scope *scope = &judging->judge->scope;
    enter(judging, start);
    scope_keep(scope, start->depth - 1);
    for (size_t at = 0; at < start->declaration_count; at++) {
        scope_declare(scope, &start->declarations[at], start->depth);
    }
    if (scope->failed) {
        out_of_memory(judging);
    }
    judging->usual_depth = judging->has_ids ? SIZE_MAX : scope_depth(scope);
}

/* Takes any start. What was passed before it is looked at first, as long as the namespaces are those that were declared there. */
static OUT_OF_LINE void take_any_start(struct judging *judging, const struct start_event *start) {
    struct judge *judge = judging->judge;
    bool is_scope_other = start->declaration_count > 0 || start->depth <= scope_depth(&judge->scope);
    if (!has_room(judging) || is_scope_other) {
        look(judging);
    }
    if (judging->found.is_there) {
        pass_start(judging, start);
        return;
    }
    enter_any(judging, start);
    end_step(judging, start->place, start->name, start->depth, false);
    pass_attributes(judging, start);
    if (judging->has_ids && !id_check_take(&judge->ids, start)) {
        out_of_memory(judging);
    }
}

/* Takes a start. If the library does not take one without attributes, it takes nothing behind it either. So the status is looked at only by take_any_start and
 * take_any_end, and at the end of the document. */
static void take_start(void *context, const struct start_event *start) {
    struct judging *judging = context;
    bool is_usual = start->depth > judging->usual_depth && start->declaration_count == 0;
    if (!is_usual || !has_room(judging)) {
        take_any_start(judging, start);
        return;
    }
    enter(judging, start);
    end_step(judging, start->place, start->name, start->depth, false);
    if (start->attribute_count > 0) {
        pass_attributes(judging, start);
    } else {
        library_tag(&judging->judge->schema, ++judging->number, start->name, NULL, 0);
    }
}

/* Begins a text. */
static inline void begin_text(struct judging *judging, struct gap *gap, struct place place) {
    gap->place = place;
    gap->kept_at = judging->judge->text.length;
    gap->kept = 0;
    gap->is = (struct gap_is){.text = true};
}

/* Keeps a piece of a text. */
static void keep_piece(struct judging *judging, struct place place, struct span text) {
    struct gap *gap = &judging->next->gap;
    if (!gap->is.text) {
        begin_text(judging, gap, place);
    }
    drop_blanks(judging, gap);
    if (!gap->is.begun) {
        gap->place = place;
    }
    keep_text(judging, gap, text);
}

/* Takes any piece of a text. */
static OUT_OF_LINE void take_any_text(struct judging *judging, struct place place, struct span text) {
    struct judge *judge = judging->judge;
    if (judging->next->gap.is.untold) {
        tell_blanks(judging);
    }
    if (!judging->found.is_there) {
        keep_piece(judging, place, text);
    }
    int32_t status = library_text(&judge->schema, text);
    if (status != RNCV_DONE) {
        is_not_taken(judging, status);
    }
}

/* Takes a piece of a text. Mostly it is the only one, and short. Of the status take_start says enough.
 *
 * The library is not told of a blank text beside an element, since such a text changes no verdict (RELAX NG Specification, section 6.2.7; blank_string_laws
 * of the crate blank_strings). Whether one is beside an element shows at the next start or end. */
static void take_text(void *context, struct place place, struct span text, bool is_blank) {
    struct judging *judging = context;
    struct gap *gap = &judging->next->gap;
    if (!judging->is_usual || gap->is.text || text.length > TEXT_BYTES) {
        take_any_text(judging, place, text);
        return;
    }
    begin_text(judging, gap, place);
    add_kept(judging, gap, text);
    gap->is.untold = is_blank && gap->kept == text.length;
    if (!gap->is.untold) {
        library_text(&judging->judge->schema, text);
    }
}

/* Whether a blank text is all that is in the element that ends, and the library has not been told of it. */
static inline bool is_untold_alone(const struct judging *judging) {
    return judging->next->gap.is.untold && judging->is_behind_start;
}

/* Takes any end. */
static OUT_OF_LINE void take_any_end(struct judging *judging, struct place place, const struct event_name *name) {
    struct judge *judge = judging->judge;
    if (is_untold_alone(judging)) {
        tell_blanks(judging);
    }
    if (!has_room(judging)) {
        look(judging);
    }
    int32_t status = rncv_events_end(&judge->schema, ++judging->number);
    if (status != RNCV_DONE) {
        is_not_taken(judging, status);
    } else if (!judging->found.is_there) {
        end_step(judging, place, name, 0, true);
    }
}

/* Takes an end, as take_start does a start. */
static void take_end(void *context, struct place place, const struct event_name *name) {
    struct judging *judging = context;
    if (!judging->is_usual || !has_room(judging) || is_untold_alone(judging)) {
        take_any_end(judging, place, name);
        return;
    }
    end_step(judging, place, name, 0, true);
    rncv_events_end(&judging->judge->schema, ++judging->number);
}

/* An instruction is nothing for the judge. */
static void take_instruction(void *context, struct place place, struct span target, struct span data) {
    struct judging *judging = context;
    (void)place;
    (void)target;
    (void)data;
    judging->next->gap.is.tag = false;
}

/* The bytes that grow with the document: those of the IDs, the namespaces, and a text that the schema tests. */
static size_t held(const void *context) {
    struct judge *judge = ((const struct judging *)context)->judge;
    size_t text = 0;
    rncv_events_held(&judge->schema, &text);
    return id_check_held(&judge->ids) + scope_held(&judge->scope) + text;
}

static void take_note(void *context, struct place place, const char *what) {
    struct answer *answer = ((struct judging *)context)->answer;
    if (answer->note_count == MOST_NOTES) {
        return;
    }
    struct note *notes = realloc(answer->notes, (answer->note_count + 1) * sizeof *notes);
    if (notes == NULL) {
        answer->notes_failed = true;
        return;
    }
    answer->notes = notes;
    notes[answer->note_count] = (struct note){place, NO_BYTES};
    add_shown(&notes[answer->note_count].what, what, strlen(what), SIZE_MAX);
    answer->notes_failed |= notes[answer->note_count++].what.failed;
}

static bool read_counted(void *context, char *bytes, size_t size, size_t *length, struct fault *fault) {
    struct judging *judging = context;
    struct shared *shared = judging->judge->shared;
    if (!source_read(&judging->source, bytes, size, length, fault)) {
        return false;
    }
    if (!judging->has_begun && *length > 0) {
        judging->has_begun = true;
        judging->first = bytes[0];
    }
    atomic_fetch_add_explicit(&shared->bytes_read, *length, memory_order_relaxed);
    shared->tick(shared->context);
    return true;
}

/* Answers `invalid`, and what is wrong at the place. */
static void answer_invalid(struct judging *judging) {
    struct answer *answer = judging->answer;
    answer->verdict = VERDICT_INVALID;
    bytes_add_text(&answer->message, "invalid");
    tell(judging->judge, &judging->found, answer);
}

/* Answers for a document that is valid by the schema: its IDs may be wrong. */
static void answer_valid(struct judging *judging) {
    struct answer *answer = judging->answer;
    const struct id_check *check = &judging->judge->ids;
    struct id_fault fault = judging->judge->shared->ids == NULL ? (struct id_fault){.is_there = false} : id_check_end(check);
    answer->verdict = fault.is_there ? VERDICT_INVALID : VERDICT_VALID;
    if (!fault.is_there) {
        return;
    }
    struct span text = text_table_text(&check->texts, fault.text);
    struct span name = text_table_text(&check->names, fault.name);
    answer->place = fault.place;
    answer->stands = STANDS_ATTRIBUTE;
    bytes_add(&answer->name, name.data, name.length);
    bytes_add_text(&answer->message, fault.is_double ? "invalid: ID \"" : "invalid: no ID \"");
    add_shown(&answer->message, text.data, text.length, SIZE_MAX);
    bytes_add_text(&answer->message, "\"");
    if (fault.is_double) {
        bytes_format(&answer->message, " is already at line %" PRIu64, fault.other.line);
    }
}

/* The answer for a fault of the document, a device or memory. */
static void answer_fault(const struct judging *judging) {
    const struct fault *fault = judging->fault;
    struct answer *answer = judging->answer;
    answer->verdict = fault->kind == FAULT_MALFORMED ? VERDICT_MALFORMED : fault->kind == FAULT_OUTSIDE ? VERDICT_OUTSIDE : VERDICT_FAILED;
    answer->place = fault->place;
    answer->clause = fault->clause;
    if (fault->clause != 0) {
        bytes_format(&answer->message, "malformed P%d: ", fault->clause);
    }
    add_shown(&answer->message, fault->what.data, fault->what.length, SIZE_MAX);
    if (fault->clause != 0) {
        bytes_format(&answer->message, ", see %s", judging->judge->shared->page);
    }
    bool is_first = fault->kind == FAULT_MALFORMED && fault->place.line == 1 && fault->place.column == 1;
    if (is_first && judging->has_begun && judging->first == '(') {
        bytes_add_text(&answer->message, "; this looks like PYX: rncv reads PYX");
    }
}

/* A document is outside the profile if a part of it was not read, and the user wants none like that. */
static void refuse_notes(struct answer *answer) {
    bool has_answer = answer->verdict == VERDICT_VALID || answer->verdict == VERDICT_INVALID;
    if (has_answer && answer->note_count > 0) {
        answer->verdict = VERDICT_OUTSIDE;
        answer->place = answer->notes[0].place;
        answer->stands = STANDS_NOT_KNOWN;
        bytes_clear(&answer->message);
        bytes_add(&answer->message, answer->notes[0].what.data, answer->notes[0].what.length);
    }
}

/* Ends the document, after the whole of it was passed. */
static void end_document(struct judging *judging) {
    if (rncv_events_finish(&judging->judge->schema, &judging->verdict) != RNCV_DONE) {
        out_of_memory(judging);
    } else if (judging->verdict.kind == RNCV_BROKEN) {
        is_not_taken(judging, RNCV_MALFORMED);
    } else if (judging->verdict.kind == RNCV_INVALID && !judging->found.is_there) {
        judging->found.is_there = true;
        judging->found.is_lost = true;
    }
}

/* Adds where the document was invalid before the place of the answer. */
static void add_earlier(struct judging *judging) {
    static const struct answer none = NO_ANSWER;
    struct answer *answer = judging->answer;
    bool is_known = judging->found.is_there && (answer->verdict == VERDICT_MALFORMED || answer->verdict == VERDICT_OUTSIDE);
    if (!judging->judge->shared->wants_earlier || !is_known) {
        return;
    }
    answer->earlier = malloc(sizeof *answer->earlier);
    if (answer->earlier == NULL) {
        answer->notes_failed = true;
        return;
    }
    *answer->earlier = none;
    judging->answer = answer->earlier;
    answer_invalid(judging);
    judging->answer = answer;
}

static void answer_all(struct judging *judging) {
    if (judging->fault->kind != FAULT_NONE) {
        answer_fault(judging);
    } else if (judging->verdict.kind == RNCV_INVALID) {
        answer_invalid(judging);
    } else if (judging->verdict.kind == RNCV_VALID && !judging->found.is_there) {
        answer_valid(judging);
    } else {
        fault_set(judging->fault, FAULT_DEVICE, (struct place){0, 0}, "the library gave no verdict");
        answer_fault(judging);
    }
    add_earlier(judging);
    if (judging->judge->shared->is_strict) {
        refuse_notes(judging->answer);
    }
}

static void read_source(struct judging *judging, const struct byte_source *source) {
    const struct shared *shared = judging->judge->shared;
    struct event_sink sink = {.start = take_start,
                              .text = take_text,
                              .end = take_end,
                              .instruction = take_instruction,
                              .note = take_note,
                              .last = take_last,
                              .held = held,
                              .context = judging,
                              .checks_names = true,
                              .depth = shared->depth,
                              .memory = shared->memory,
                              .attributes = shared->attributes};
    read_events(source, &sink, judging->fault);
}

static void read_named(struct judging *judging, const char *name) {
    const struct shared *shared = judging->judge->shared;
    if (source_open(&judging->source, name, shared->streams, judging->fault)) {
        read_source(judging, &(struct byte_source){read_counted, judging, shared->loads_dtd ? beside(name) : NULL});
    }
}

/* Whether the document that was judged last may have further faults, which are wanted. */
static bool is_hint_due(const struct judge *judge, const struct answer *answer) {
    const struct shared *shared = judge->shared;
    return shared->alone != NULL && shared->most_faults > 1 && answer->verdict == VERDICT_INVALID && judge->found_number > 0;
}

/* Adds further faults to the answer, if the document can be read once more. */
static void add_hints(struct judging *judging, const char *name) {
    const struct shared *shared = judging->judge->shared;
    if (is_hint_due(judging->judge, judging->answer) && source_rewind(&judging->source)) {
        const struct byte_source again = {source_read, &judging->source, shared->loads_dtd ? beside(name) : NULL};
        second_reading(judging->judge, &again, judging->judge->found_number, judging->answer);
    }
}

/* Forgets what was kept of another document. */
static void forget(struct judge *judge) {
    judge->found_number = 0;
    scope_clear(&judge->scope);
    if (judge->text.failed) {
        bytes_free(&judge->text);
    }
    bytes_clear(&judge->text);
    id_check_begin(&judge->ids);
}

/* Judges what the source gives, or the document of this name if there is no source. */
static void judge_either(struct judge *judge, const struct byte_source *given, const char *name, struct answer *answer) {
    struct fault fault = NO_FAULT;
    struct judging judging;
    memset(&judging, 0, sizeof judging);
    judging.judge = judge;
    judging.answer = answer;
    judging.fault = &fault;
    judging.verdict.kind = -1;
    judging.next = judging.steps;
    judging.has_ids = judge->shared->ids != NULL;
    judging.is_usual = !judging.has_ids;
    judging.usual_depth = judging.has_ids ? SIZE_MAX : 0;
    forget(judge);
    if (rncv_events_begin(&judge->schema) != RNCV_DONE) {
        out_of_memory(&judging);
    } else if (given != NULL) {
        read_source(&judging, given);
    } else {
        read_named(&judging, name);
    }
    if (fault.kind == FAULT_NONE) {
        end_document(&judging);
    }
    answer_all(&judging);
    if (given == NULL) {
        add_hints(&judging, name);
        source_close(&judging.source);
    }
    if (answer->message.failed || answer->notes_failed || answer->name.failed) {
        answer->verdict = answer->verdict == VERDICT_VALID ? VERDICT_FAILED : answer->verdict;
    }
    finding_free(&judging.found);
    fault_free(&fault);
}

void judge_document(struct judge *judge, const char *name, struct answer *answer) {
    judge_either(judge, NULL, name, answer);
}

void judge_by(struct judge *judge, const struct byte_source *source, struct answer *answer) {
    judge_either(judge, source, NULL, answer);
}

void judge_again(struct judge *judge, const struct byte_source *source, struct answer *answer) {
    hints_free(answer);
    if (is_hint_due(judge, answer)) {
        second_reading(judge, source, judge->found_number, answer);
    }
}
