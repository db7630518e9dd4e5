#include "schema_merging.h"

#include "program.h"
#include "rng_tree.h"
#include "schema_collecting.h"
#include "schema_walk.h"

#include <stdlib.h>

enum { MOST_BYTES = 1048576, MOST_DEPTH = 128, MOST_DECLARATIONS = 256, MOST_NAMES = 1000000, MOST_ALL_BYTES = 67108864, PREFIX_BYTES = 9 };

/* A name that a grammar has. */
struct named {
    struct span name;
    bool has_mention; /* of a file, in a component of this name */
};

/* An `include`, or an `external`. A file that is an external stays. */
struct site {
    size_t from;
    size_t to;
    size_t depth;
    bool is_outer;    /* a component of the file's own grammar */
    bool is_checked;  /* `is_odd` is known */
    bool is_odd;      /* it overrides what is not there, or what mentions a file */
    struct span *overrides;
    size_t override_count;
    size_t next;      /* the next site of the same file, plus 1 */
};

/* What is known of a file. */
struct part {
    size_t size;        /* of its text with what is merged into it, about */
    size_t renamed;     /* how many of its names get another prefix if it is written into another file */
    size_t first_site;  /* where it is mentioned, plus 1 */
    size_t site_count;
    size_t depth;       /* of its brackets then */
    size_t left;        /* how many includes are not merged */
    struct bytes texts; /* of the names */
    struct named *names;
    size_t name_count, name_capacity;
    bool can_move;      /* it may be written into another file */
    bool is_reached;
    bool has_merged;    /* files are merged into it */
    bool has_all_names; /* also those of the files that it includes */
};

struct plan {
    struct schema_files *files;
    struct part *parts;
    struct site *sites;
    size_t site_count, site_capacity;
    bool *is_merged;
    size_t *order;        /* the files that are reached, as the library judges them; SIZE_MAX: one that is not there */
    size_t *merged_order; /* those that are merged */
    size_t reached;
    size_t merged;
    size_t names;         /* in all parts */
    bool misses;          /* a file that is not there is in the order */
    bool is_odd;          /* nothing is merged, since a file was not understood, or the texts are too large */
    bool failed;
};

/* Asks the library whether the file breaks a clause from 3 to 8 by itself. One that is too large breaks S2. False: out of memory. */
static bool judge_file(struct plan *plan, size_t index) {
    const struct bytes *content = &plan->files->list[index].content;
    const uint8_t *bytes = (const uint8_t *)(content->data == NULL ? "" : content->data);
    rncv_fault fault = {2, 0, -1, -1, -1};
    size_t needed;
    int32_t status = content->length > MOST_BYTES ? RNCV_REFUSED : rncv_mentions(bytes, content->length, NULL, 0, &needed, &fault);
    if (status == RNCV_REFUSED) {
        fault.file = (int64_t)index;
        plan->files->judged = fault;
        plan->files->is_judged = true;
    }
    return status != RNCV_MEMORY;
}

static bool keep_name(struct plan *plan, struct part *part, struct span name, bool has_mention) {
    if (plan->names >= MOST_NAMES) {
        part->can_move = false;
        return true;
    }
    if (!rng_grow((void **)&part->names, part->name_count, &part->name_capacity, sizeof *part->names)) {
        return false;
    }
    part->names[part->name_count++] = (struct named){name, has_mention};
    plan->names++;
    return true;
}

/* Copies a text into the room of the part, which is large enough. */
static struct span copied(struct part *part, struct span text) {
    size_t at = part->texts.length;
    bytes_add(&part->texts, text.data, text.length);
    return (struct span){part->texts.data == NULL ? "" : part->texts.data + at, text.length};
}

/* Keeps the names of the file's own components, those in the braces of its includes too. */
static bool keep_names(struct plan *plan, struct part *part, const struct walk *walk) {
    bool is_good = bytes_reserve(&part->texts, 2 * walk->tokens.text.length + 1);
    for (size_t at = 0; at < walk->component_count && is_good; at++) {
        const struct component *component = &walk->components[at];
        is_good = component->grammar != 0 || keep_name(plan, part, copied(part, component->name), component->has_mention);
    }
    return is_good;
}

/* Keeps what overrides at a site. */
static bool keep_overrides(struct part *part, struct site *site, const struct walk *walk, size_t mention) {
    site->overrides = calloc(walk->component_count + 1, sizeof *site->overrides);
    for (size_t at = 0; site->overrides != NULL && at < walk->component_count; at++) {
        if (walk->components[at].include == mention + 1) {
            site->overrides[site->override_count++] = copied(part, walk->components[at].name);
        }
    }
    return site->overrides != NULL;
}

/* Puts a file into the order of judging, once. A file that is not there has its place in it too. */
static void reach(struct plan *plan, size_t index) {
    bool *is_reached = index == SIZE_MAX ? &plan->misses : &plan->parts[index].is_reached;
    if (!*is_reached) {
        *is_reached = true;
        plan->order[plan->reached++] = index;
    }
}

/* Keeps a mention, and reaches its file. */
static bool keep_site(struct plan *plan, size_t from, const struct walk *walk, size_t index) {
    const struct mention *mention = &walk->mentions[index];
    bool is_twice;
    size_t to = file_of_name(plan->files, &mention->words, &is_twice);
    if (!rng_grow((void **)&plan->sites, plan->site_count, &plan->site_capacity, sizeof *plan->sites)) {
        return false;
    }
    struct site *site = &plan->sites[plan->site_count++];
    *site = (struct site){.from = from, .to = to, .depth = mention->depth, .is_outer = mention->is_include && mention->grammar == 0};
    plan->parts[from].left += mention->is_include;
    if (to != SIZE_MAX) {
        struct part *part = &plan->parts[to];
        part->can_move &= mention->is_include;
        site->next = part->first_site;
        part->first_site = plan->site_count;
        part->site_count++;
    }
    reach(plan, to);
    return keep_overrides(&plan->parts[from], site, walk, index);
}

/* Reads a file that breaks no clause by itself. */
static bool read_part(struct plan *plan, size_t index) {
    struct part *part = &plan->parts[index];
    const struct bytes *content = &plan->files->list[index].content;
    struct walk walk;
    bool is_good = walk_open(&walk, content->data, content->length);
    part->can_move &= walk.is_grammar && !walk.has_context && walk.declaration_count <= MOST_DECLARATIONS;
    plan->is_odd |= walk.is_odd;
    part->size = content->length;
    part->depth = walk.most_depth;
    for (size_t at = 0; at < walk.count; at++) {
        part->renamed += walk.list[at].role != ROLE_PLAIN;
    }
    is_good = !walk.failed && (plan->is_odd || keep_names(plan, part, &walk));
    for (size_t at = 0; at < walk.mention_count && is_good; at++) {
        is_good = keep_site(plan, index, &walk, at);
    }
    walk_close(&walk);
    return is_good;
}

/* Judges one file of the order by itself, and reads it. */
static bool take_part(struct plan *plan, size_t index) {
    struct schema_files *files = plan->files;
    bool is_twice = false;
    if (index == SIZE_MAX || (file_of_name(files, &files->list[index].name, &is_twice), is_twice)) {
        files->is_judged = true;
        files->judged = (rncv_fault){1, index == SIZE_MAX ? -1 : (int64_t)index, -1, -1, -1};
        return true;
    }
    return judge_file(plan, index) && (files->is_judged || read_part(plan, index));
}

/* Judges the files one after the other, in the order of the library, until one breaks a clause. */
static bool read_all(struct plan *plan) {
    bool is_good = true;
    size_t bytes = 0;
    reach(plan, 0);
    for (size_t at = 0; at < plan->reached && is_good && !plan->files->is_judged && !plan->is_odd; at++) {
        bytes += plan->order[at] == SIZE_MAX ? 0 : plan->files->list[plan->order[at]].content.length;
        plan->is_odd = bytes > MOST_ALL_BYTES;
        is_good = plan->is_odd || take_part(plan, plan->order[at]);
    }
    return is_good;
}

static int compare_names(const void *one, const void *other) {
    const struct span *left = &((const struct named *)one)->name;
    const struct span *right = &((const struct named *)other)->name;
    size_t shared = left->length < right->length ? left->length : right->length;
    int order = shared == 0 ? 0 : memcmp(left->data, right->data, shared);
    return order != 0 ? order : (left->length > right->length) - (left->length < right->length);
}

/* Sorts the names, each once. */
static void sort_names(struct part *part) {
    size_t kept = 0;
    qsort(part->names, part->name_count, sizeof *part->names, compare_names);
    for (size_t at = 0; at < part->name_count; at++) {
        bool is_same_name = kept > 0 && compare_names(&part->names[kept - 1], &part->names[at]) == 0;
        part->names[kept - is_same_name].name = part->names[at].name;
        part->names[kept - is_same_name].has_mention = part->names[at].has_mention || (is_same_name && part->names[kept - 1].has_mention);
        kept += !is_same_name;
    }
    part->name_count = kept;
}

/* Gathers the names that a file has through what it includes, all of which is merged. */
static bool gather_names(struct plan *plan, size_t index) {
    struct part *part = &plan->parts[index];
    bool is_good = true;
    for (size_t at = 0; at < plan->site_count && is_good && !part->has_all_names; at++) {
        const struct site *site = &plan->sites[at];
        for (size_t name = 0; site->from == index && site->is_outer && name < plan->parts[site->to].name_count && is_good; name++) {
            struct named *named = &plan->parts[site->to].names[name];
            is_good = keep_name(plan, part, named->name, named->has_mention);
        }
    }
    if (!part->has_all_names && part->name_count > 0) {
        sort_names(part);
    }
    part->has_all_names = true;
    return is_good;
}

/* The bytes of the part where it is written into another file. */
static size_t moved_size(const struct part *part) {
    return part->size + PREFIX_BYTES * (part->renamed + 1);
}

/* Whether the components that are overridden at a site are there, and mention no file: the library judges what they mention too. */
static bool has_good_overrides(const struct plan *plan, struct site *site) {
    const struct part *part = &plan->parts[site->to];
    for (size_t at = 0; at < site->override_count && !site->is_checked; at++) {
        struct named wanted = {site->overrides[at], false};
        const struct named *found = part->name_count == 0 ? NULL : bsearch(&wanted, part->names, part->name_count, sizeof wanted, compare_names);
        site->is_odd |= found == NULL || found->has_mention;
    }
    site->is_checked = true;
    return !site->is_odd;
}

/* Whether the file may be written in the place of this include. */
static bool is_sound(const struct plan *plan, struct site *site) {
    const struct part *part = &plan->parts[site->to];
    const struct part *into = &plan->parts[site->from];
    bool has_room = site->depth + 1 + part->depth <= MOST_DEPTH && into->size + part->site_count * moved_size(part) <= MOST_BYTES;
    return has_room && has_good_overrides(plan, site);
}

/* How many bytes it costs to write a file into those that include it; SIZE_MAX: it cannot be done. */
static size_t cost_of(struct plan *plan, size_t index) {
    const struct part *part = &plan->parts[index];
    if (index == 0 || !part->is_reached || !part->can_move || part->left > 0 || plan->is_merged[index]) {
        return SIZE_MAX;
    }
    plan->failed |= !gather_names(plan, index);
    bool is_good = part->can_move && !plan->failed;
    for (size_t site = part->first_site; site > 0 && is_good; site = plan->sites[site - 1].next) {
        is_good = is_sound(plan, &plan->sites[site - 1]);
    }
    return is_good ? part->site_count * moved_size(part) : SIZE_MAX;
}

/* Chooses the file that costs least. SIZE_MAX: there is none. */
static size_t cheapest(struct plan *plan) {
    size_t best = SIZE_MAX;
    size_t least = SIZE_MAX;
    for (size_t at = 0; at < plan->files->count && !plan->failed; at++) {
        size_t cost = cost_of(plan, at);
        if (cost < least) {
            best = at;
            least = cost;
        }
    }
    return plan->failed ? SIZE_MAX : best;
}

static void merge_one(struct plan *plan, size_t index) {
    const struct part *part = &plan->parts[index];
    plan->is_merged[index] = true;
    plan->merged_order[plan->merged++] = index;
    for (size_t at = part->first_site; at > 0; at = plan->sites[at - 1].next) {
        const struct site *site = &plan->sites[at - 1];
        struct part *into = &plan->parts[site->from];
        size_t depth = site->depth + 1 + part->depth;
        into->size += moved_size(part);
        into->renamed += part->renamed;
        into->depth = depth > into->depth ? depth : into->depth;
        into->left--;
        into->has_merged = true;
    }
}

/* Writes a file, if others are merged into it. */
static bool write_part(struct plan *plan, size_t index) {
    bool is_good = !plan->parts[index].has_merged || merge_write(plan->files, plan->is_merged, index);
    plan->is_odd |= plan->files->list[index].merged.length > MOST_BYTES;
    return is_good;
}

/* Writes the files: first those that are merged, each after those that are merged into it. */
static bool write_parts(struct plan *plan) {
    bool is_good = true;
    for (size_t at = 0; at < plan->merged && is_good; at++) {
        is_good = write_part(plan, plan->merged_order[at]);
    }
    for (size_t at = 0; at < plan->files->count && is_good; at++) {
        is_good = !plan->parts[at].is_reached || plan->is_merged[at] || write_part(plan, at);
    }
    return is_good;
}

/* Puts the files that are handed in before the others. */
static bool divide(struct plan *plan) {
    struct schema_files *files = plan->files;
    struct schema_file *list = calloc(files->capacity, sizeof *list);
    size_t placed = 0;
    if (list == NULL) {
        return false;
    }
    for (int turn = 0; turn < 2; turn++) {
        for (size_t at = 0; at < files->count; at++) {
            bool is_handed = plan->parts[at].is_reached && !plan->is_merged[at];
            if (is_handed == (turn == 0)) {
                list[placed++] = files->list[at];
            }
        }
        files->handed = turn == 0 ? placed : files->handed;
    }
    free(files->list);
    files->list = list;
    return true;
}

/* Notes that there are too many files. */
static bool refuse_many(struct plan *plan, size_t left, size_t most) {
    struct bytes line = NO_BYTES;
    struct schema_files *files = plan->files;
    if (plan->is_odd) {
        bytes_format(&line, "the schema has more than %zu files, and more text than can be written into these: outside the profile", most);
    } else {
        bytes_add_text(&line, "the schema has ");
        bytes_add_count(&line, plan->reached);
        bytes_add_text(&line, " files. ");
        bytes_add_count(&line, left);
        bytes_format(&line, " are left after the others were written into them, and %zu are served: outside the profile", most);
    }
    add_path(&files->problem_path, bytes_text(&files->list[0].path));
    line.failed |= files->problem_path.failed;
    files_problem(files, STATUS_REFUSED, &line);
    bytes_free(&line);
    return false;
}

/* Chooses what is merged, and writes it. */
static bool merge_all(struct plan *plan, size_t most) {
    size_t left = plan->reached;
    while (left > most && !plan->is_odd) {
        size_t index = cheapest(plan);
        if (index == SIZE_MAX) {
            break;
        }
        merge_one(plan, index);
        left--;
    }
    if (plan->failed) {
        return files_without_memory(plan->files);
    }
    if (left <= most && !plan->is_odd && !write_parts(plan)) {
        return files_without_memory(plan->files);
    }
    if (left > most || plan->is_odd) {
        return refuse_many(plan, left, most);
    }
    return divide(plan) || files_without_memory(plan->files);
}

static void plan_close(struct plan *plan) {
    for (size_t at = 0; plan->parts != NULL && at < plan->files->count; at++) {
        bytes_free(&plan->parts[at].texts);
        free(plan->parts[at].names);
    }
    for (size_t at = 0; at < plan->site_count; at++) {
        free(plan->sites[at].overrides);
    }
    free(plan->parts);
    free(plan->sites);
    free(plan->is_merged);
    free(plan->order);
    free(plan->merged_order);
}

bool schema_files_merge(struct schema_files *files, size_t most) {
    struct plan plan = {.files = files};
    files->handed = files->count;
    if (files->count <= most) {
        return true;
    }
    plan.parts = calloc(files->count, sizeof *plan.parts);
    plan.is_merged = calloc(files->count, sizeof *plan.is_merged);
    plan.order = calloc(files->count + 1, sizeof *plan.order);
    plan.merged_order = calloc(files->count, sizeof *plan.merged_order);
    bool is_good = plan.parts != NULL && plan.is_merged != NULL && plan.order != NULL && plan.merged_order != NULL;
    for (size_t at = 0; is_good && at < files->count; at++) {
        plan.parts[at].can_move = true;
    }
    is_good = is_good && read_all(&plan);
    if (!is_good) {
        files_without_memory(files);
    } else if (!files->is_judged) {
        is_good = merge_all(&plan, most);
    }
    plan_close(&plan);
    return is_good && !files->failed;
}
