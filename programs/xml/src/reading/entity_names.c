#include "entity_names.h"

#include "entity_text.h"
#include "runs.h"

/* A text that is being written. */
struct numbering {
    struct long_names *names;
    struct run_scan scan;
    struct bytes *to;
    const char *beginnings; /* of markup */
    bool failed;
};

static size_t name_length(struct span text) {
    const struct run_scan name = {.kind = RUN_NAME};
    return run_length(&name, text);
}

bool has_long_run(struct span text) {
    size_t length = 0;
    while (text.length > LONGEST_NAME && length <= LONGEST_NAME) {
        length = name_length(text);
        text = span_from(text, length + 1);
    }
    return length > LONGEST_NAME;
}

/* Adds a name. One behind an ampersand may have its number already. */
static void add_name(struct numbering *numbering, struct span name) {
    char number[NUMBER_BYTES + 1] = "";
    size_t kept = name.length;
    if (!long_names_have(numbering->names, name)) {
        struct bytes whole = NO_BYTES;
        bytes_add(&whole, name.data, name.length);
        numbering->failed |= !long_names_put(numbering->names, &whole, number);
        bytes_free(&whole);
        kept = long_name_kept(name);
    }
    bytes_add(numbering->to, name.data, kept);
    bytes_add_text(numbering->to, number);
}

/* Adds the section at the start of the text, of which the target of an instruction may be a long name. */
static void add_section(struct numbering *numbering, struct span section) {
    size_t begin = span_begins(section, "<?") ? 2 : 0;
    size_t target = begin == 0 ? 0 : name_length(span_from(section, begin));
    bytes_add(numbering->to, section.data, begin);
    add_name(numbering, (struct span){section.data + begin, target});
    bytes_add(numbering->to, section.data + begin + target, section.length - begin - target);
}

/* Adds what is at the start of the text: a section, or what is before the next markup. 0: it is other markup, whose names are looked for. */
static size_t add_other(struct numbering *numbering, struct span text) {
    size_t section = entity_text_section(text);
    size_t length = 0;
    if (section > 0) {
        add_section(numbering, (struct span){text.data, section});
        numbering->scan.part = PART_OTHER;
        return section;
    }
    while (length < text.length && strchr(numbering->beginnings, text.data[length]) == NULL) {
        length++;
    }
    bytes_add(numbering->to, text.data, length);
    return length;
}

/* Adds the text up to where a run ends. */
static size_t add_run(struct numbering *numbering, struct span text) {
    size_t length = runs_look(&numbering->scan, text);
    if (numbering->scan.kind == RUN_NAME) {
        add_name(numbering, (struct span){text.data, length});
    } else {
        bytes_add(numbering->to, text.data, length);
    }
    return length;
}

/* Begins with the markup at the start of the text. */
static size_t begin_markup(struct numbering *numbering, struct span text) {
    runs_begin(&numbering->scan, 0, text, false);
    size_t length = (size_t)numbering->scan.looked;
    bytes_add(numbering->to, text.data, length);
    return length;
}

bool add_with_numbers(struct long_names *names, struct span text, bool is_of_declarations, struct bytes *to) {
    struct numbering numbering = {names, {.part = PART_OTHER}, to, is_of_declarations ? "<%" : "<&", false};
    while (text.length > 0 && !numbering.failed) {
        bool is_between = numbering.scan.part == PART_OTHER || (numbering.scan.part == PART_SUBSET && text.data[0] == '<');
        size_t length = is_between ? add_other(&numbering, text) : 0;
        length = is_between && length == 0 ? begin_markup(&numbering, text) : length;
        length = length > 0 ? length : add_run(&numbering, text);
        text = span_from(text, length);
    }
    return !numbering.failed && !to->failed;
}
