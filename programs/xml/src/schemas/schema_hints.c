#include "schema_annotations.h"
#include "schema_hinting.h"

#include <stdlib.h>
#include <string.h>

enum {
    MOST_PART = 60,   /* bytes of a part of the schema in a sentence */
    MOST_NAMES = 6,   /* names in a sentence */
    MOST_SIMILAR = 20000,
    MOST_PATHS = 4096
};

const struct node *hint_node(const struct hinting *hinting, uint32_t node) {
    return &hinting->grammars.tree.nodes[node];
}

bool hint_begins(struct hinting *hinting, uint32_t node) {
    if (hinting->node != 0 || node == 0) {
        return false;
    }
    hinting->node = node;
    return true;
}

/* The greatest length that is at most `most` and cuts no character. */
static size_t cut_at(const char *data, size_t length, size_t most) {
    size_t end = length < most ? length : most;
    while (end < length && end > 0 && ((unsigned char)data[end] & 0xC0) == 0x80) {
        end--;
    }
    return end;
}

/* A blank, or what would break a line. */
static bool is_blank(char byte) {
    return (unsigned char)byte <= ' ' || byte == 0x7F;
}

void add_part(struct hinting *hinting, struct span part) {
    size_t end = cut_at(part.data, part.length, MOST_PART);
    for (size_t at = 0; at < end; at++) {
        if (!is_blank(part.data[at])) {
            bytes_add_byte(&hinting->text, part.data[at]);
        } else if (at == 0 || !is_blank(part.data[at - 1])) {
            bytes_add_byte(&hinting->text, ' ');
        }
    }
    bytes_add_text(&hinting->text, end < part.length ? ".." : "");
}

void add_title(struct hinting *hinting, uint32_t node) {
    static const char *const words[] = {
        [NODE_ELEMENT] = "element ", [NODE_ATTRIBUTE] = "attribute ", [NODE_LIST] = "list", [NODE_MIXED] = "mixed", [NODE_REF] = "", [NODE_EMPTY] = "empty",
        [NODE_TEXT] = "text", [NODE_VALUE] = "the value '", [NODE_DATA] = "", [NODE_GROUP] = "a group (,)", [NODE_INTERLEAVE] = "an interleave (&)",
        [NODE_CHOICE] = "a choice (|)", [NODE_PLUS] = "a repetition (+)", [NODE_STAR] = "a repetition (*)", [NODE_OPTIONAL] = "an option (?)"};
    const struct node *here = hint_node(hinting, node);
    bool has_words = here->kind < sizeof words / sizeof *words && words[here->kind] != NULL;
    bytes_add_text(&hinting->text, has_words ? words[here->kind] : "this");
    if (here->kind == NODE_VALUE) {
        add_part(hinting, here->other);
        bytes_add_text(&hinting->text, "'");
    } else if (here->kind == NODE_ELEMENT || here->kind == NODE_ATTRIBUTE || here->kind == NODE_REF || here->kind == NODE_DATA) {
        size_t quote = here->text.length > 0 && here->text.data[0] == '\\'; /* of a quoted identifier */
        add_part(hinting, (struct span){here->text.data + quote, here->text.length - quote});
    }
}

/* The line and the column of an offset in a file. */
static void find_place(const struct schema_hint_file *file, size_t at, struct schema_hint *hint) {
    struct place place = place_at(file->bytes, file->length, file->origins, at);
    hint->line = place.line;
    hint->column = place.column;
}

static void add_shown_file(struct hinting *hinting, uint32_t file) {
    const struct schema_hint_file *given = hinting->grammars.tree.files[file].given;
    add_part(hinting, given->shown == NULL ? (struct span){given->name, given->name_length} : (struct span){given->shown, strlen(given->shown)});
}

/* Adds the place of a node: with its file, if that is another one than the hint's. */
static void add_place(struct hinting *hinting, uint32_t node) {
    const struct node *other = hint_node(hinting, node);
    struct schema_hint place;
    find_place(hinting->grammars.tree.files[other->file].given, other->at, &place);
    if (other->file != hint_node(hinting, hinting->node)->file) {
        add_shown_file(hinting, other->file);
        bytes_add_text(&hinting->text, ":");
    }
    bytes_format(&hinting->text, "%llu:%llu", (unsigned long long)place.line, (unsigned long long)place.column);
}

void add_other(struct hinting *hinting, uint32_t other) {
    bytes_add_text(&hinting->text, " (the other is at ");
    add_place(hinting, other);
    bytes_add_text(&hinting->text, ")");
}

/* What S1 looks at: the files that were met, in their order. They need not be sentences of the grammar. */
struct missing_search {
    const struct schema_hint_file *files;
    size_t count;
    size_t order[MOST_TREE_FILES];
    size_t met;
    struct bytes *text;
};

/* Reads the literal that begins with the token, with its joined segments. `token` is then the one after it. */
static void read_literal(struct tokens *tokens, struct token *token, struct bytes *literal) {
    bool is_due = true;
    while (is_due && token->kind == TOKEN_LITERAL) {
        add_literal(literal, token);
        *token = tokens_next(tokens);
        is_due = is_sign(token, '~');
        if (is_due) {
            *token = tokens_next(tokens);
        }
    }
}

/* Whether exactly one file has the name. If so, it is met. */
static bool is_there(struct missing_search *search, struct span name) {
    size_t times = 0;
    size_t found = 0;
    bool is_met = false;
    for (size_t at = 0; at < search->count; at++) {
        bool is_it = span_equal((struct span){search->files[at].name, search->files[at].name_length}, name);
        found = is_it && times == 0 ? at : found;
        times += is_it;
    }
    for (size_t at = 0; at < search->met; at++) {
        is_met |= search->order[at] == found;
    }
    if (times == 1 && !is_met && search->met < MOST_TREE_FILES) {
        search->order[search->met++] = found;
    }
    if (times != 1) {
        bytes_add(search->text, name.data, cut_at(name.data, name.length, MOST_PART));
        bytes_add_text(search->text, times == 0 ? " is not there" : " is there twice");
    }
    return times == 1;
}

/* Looks at the mentions of a file. False: one names no file, or two, and `at` is where. */
static bool mentions_are_there(struct missing_search *search, const struct schema_hint_file *file, size_t *at) {
    struct tokens tokens;
    bool is_mention = false;
    bool is_good = tokens_open(&tokens, file->bytes, file->length);
    long depth = 0;
    for (struct token token = tokens_next(&tokens); is_good && token.kind != TOKEN_NONE;) {
        if (is_mention && token.kind == TOKEN_LITERAL) {
            struct bytes name = NO_BYTES;
            *at = token.at;
            read_literal(&tokens, &token, &name);
            is_good = is_there(search, (struct span){bytes_text(&name), name.length});
            bytes_free(&name);
        }
        depth += is_sign(&token, '[') - is_sign(&token, ']');
        is_mention = depth == 0 && (is_word(&token, "include") || is_word(&token, "external"));
        token = token.kind == TOKEN_NONE ? token : tokens_next(&tokens);
    }
    tokens_close(&tokens);
    return is_good;
}

/* S1: the first mention of a file that is not there, or is there twice. */
static int find_missing(const struct schema_hint_file *files, size_t count, struct schema_hint *hint, struct bytes *text) {
    struct missing_search search = {files, count, {0}, 0, text};
    if (count == 0 || !is_there(&search, (struct span){files[0].name, files[0].name_length})) {
        hint->file = 0;
        hint->line = 1;
        hint->column = 1;
        return text->length > 0;
    }
    for (size_t at = 0; at < search.met; at++) {
        const struct schema_hint_file *file = &files[search.order[at]];
        size_t place = 0;
        if (!mentions_are_there(&search, file, &place)) {
            hint->file = search.order[at];
            find_place(file, place, hint);
            return text->length > 0;
        }
    }
    return 0;
}

/* The first mention in a file that leads to a file of a state; 0: none. */
static uint32_t mention_to(struct hinting *hinting, uint32_t file, const uint8_t *states, uint8_t state) {
    struct tree *tree = &hinting->grammars.tree;
    for (uint32_t at = 0; at < tree->mention_count && tree_step(tree, 1); at++) {
        const struct node *node = hint_node(hinting, tree->mentions[at]);
        if (node->file == file && states[tree_file_of(tree, node->text)] == state) {
            return tree->mentions[at];
        }
    }
    return 0;
}

/* S9: follows mentions until one leads to a file that is on the way. */
static void judge_cycle(struct hinting *hinting) {
    enum { NEW, ON_THE_WAY, DONE };
    uint8_t states[MOST_TREE_FILES] = {ON_THE_WAY};
    uint32_t way[MOST_TREE_FILES + 1] = {0};
    size_t length = 1;
    while (length > 0) {
        uint32_t back = mention_to(hinting, way[length - 1], states, ON_THE_WAY);
        uint32_t on = mention_to(hinting, way[length - 1], states, NEW);
        if (back != 0 && hint_begins(hinting, back)) {
            uint32_t target = tree_file_of(&hinting->grammars.tree, hint_node(hinting, back)->text);
            size_t at = length - 1;
            while (way[at] != target) {
                at--;
            }
            bytes_add_text(&hinting->text, at == length - 1 ? "the file mentions itself: " : "files mention one another: ");
            for (size_t shown = 0; at < length && shown < MOST_NAMES; at++, shown++) {
                add_shown_file(hinting, way[at]);
                bytes_add_text(&hinting->text, " -> ");
            }
            bytes_add_text(&hinting->text, at < length ? ".. -> " : "");
            add_shown_file(hinting, target);
            return;
        }
        if (on != 0) {
            way[length] = tree_file_of(&hinting->grammars.tree, hint_node(hinting, on)->text);
            states[way[length++]] = ON_THE_WAY;
        } else {
            states[way[--length]] = DONE;
        }
    }
}

/* How many paths of mentions begin at a file, the empty one counted, and too many as MOST_PATHS + 1. There is no cycle. */
static uint32_t paths_from(struct hinting *hinting, uint32_t file, uint32_t *known) {
    struct tree *tree = &hinting->grammars.tree;
    uint32_t paths = 1;
    for (uint32_t at = 0; at < tree->mention_count && known[file] == 0 && tree_step(tree, 1); at++) {
        const struct node *node = hint_node(hinting, tree->mentions[at]);
        paths += node->file == file ? paths_from(hinting, tree_file_of(tree, node->text), known) : 0;
        paths = paths > MOST_PATHS ? MOST_PATHS + 1 : paths;
    }
    known[file] = known[file] == 0 ? paths : known[file];
    return known[file];
}

/* S9 */
static void judge_mentions(struct hinting *hinting) {
    struct tree *tree = &hinting->grammars.tree;
    uint32_t known[MOST_TREE_FILES] = {0};
    judge_cycle(hinting);
    if (hinting->node == 0 && !tree->failed && paths_from(hinting, 0, known) > MOST_PATHS && hint_begins(hinting, tree->mentions[0])) {
        bytes_add_text(&hinting->text, "no file mentions itself, but more than 4,096 paths of mentions lead from the main file");
    }
}

static void add_include(struct tree_file *file, uint32_t included) {
    file->includes[included / 64 % FILE_WORDS] |= UINT64_C(1) << included % 64;
}

/* Puts the names that a file's grammar has itself into the table, and the files that it includes. */
static void note_names(struct hinting *hinting, uint32_t file, uint32_t first, int depth) {
    struct tree *tree = &hinting->grammars.tree;
    tree->failed |= depth > 300;
    for (uint32_t at = first; at != 0 && tree_step(tree, 1); at = hint_node(hinting, at)->next) {
        const struct node *node = hint_node(hinting, at);
        struct key key = {KEY_OWN, file, 0, 0, node->text};
        if (node->kind == NODE_DIV || node->kind == NODE_INCLUDE) {
            if (node->kind == NODE_INCLUDE) {
                add_include(&tree->files[file], tree_file_of(tree, node->text));
            }
            note_names(hinting, file, node->child, depth + 1);
        } else {
            uint32_t *value = tree_value(tree, &key);
            if (value != NULL) {
                *value = at;
            }
        }
    }
}

/* Whether the grammar of a file has a name, by itself or through includes. */
static bool has_name(struct hinting *hinting, uint32_t file, struct span name) {
    struct tree *tree = &hinting->grammars.tree;
    uint64_t seen[FILE_WORDS] = {0};
    uint32_t waiting[MOST_TREE_FILES] = {file};
    seen[file / 64 % FILE_WORDS] |= UINT64_C(1) << file % 64;
    for (size_t count = 1; count > 0 && tree_step(tree, FILE_WORDS);) {
        uint32_t at = waiting[--count];
        struct key key = {KEY_OWN, at, 0, 0, name};
        if (tree_find(tree, &key) != NONE) {
            return true;
        }
        for (uint32_t word = 0; word < FILE_WORDS; word++) {
            uint64_t fresh = tree->files[at].includes[word] & ~seen[word];
            seen[word] |= fresh;
            for (uint32_t bit = 0; fresh != 0; bit++, fresh >>= 1) {
                waiting[count] = 64 * word + bit;
                count += fresh & 1;
            }
        }
    }
    return false;
}

/* Looks for what the braces of an include have, and the file does not. */
static void judge_overrides(struct hinting *hinting, uint32_t include, uint32_t first, int depth) {
    uint32_t file = tree_file_of(&hinting->grammars.tree, hint_node(hinting, include)->text);
    for (uint32_t at = first; at != 0 && depth < 300 && tree_step(&hinting->grammars.tree, 1); at = hint_node(hinting, at)->next) {
        const struct node *node = hint_node(hinting, at);
        if (node->kind == NODE_DIV) {
            judge_overrides(hinting, include, node->child, depth + 1);
        } else if (node->kind != NODE_INCLUDE && !has_name(hinting, file, node->text) && hint_begins(hinting, at)) {
            add_part(hinting, node->kind == NODE_START ? (struct span){"start", 5} : node->text);
            bytes_add_text(&hinting->text, node->kind == NODE_START ? " is overridden, and there is none in " : " is overridden, and is not in ");
            add_shown_file(hinting, file);
        }
    }
}

/* S10 */
static void judge_includes(struct hinting *hinting) {
    struct tree *tree = &hinting->grammars.tree;
    for (uint32_t file = 0; file < tree->file_count; file++) {
        if (tree->files[file].is_read && tree->files[file].is_grammar) {
            note_names(hinting, file, tree->files[file].components, 0);
        }
    }
    for (uint32_t at = 1; at < tree->count && hinting->node == 0 && tree_step(tree, 1); at++) {
        const struct node *node = hint_node(hinting, at);
        uint32_t file = node->kind == NODE_INCLUDE ? tree_file_of(tree, node->text) : NONE;
        if (file != NONE && !tree->files[file].is_grammar && hint_begins(hinting, at)) {
            add_shown_file(hinting, file);
            bytes_add_text(&hinting->text, " is a pattern, and only a grammar can be included (external takes a pattern)");
        } else if (file != NONE) {
            judge_overrides(hinting, at, node->child, 0);
        }
    }
}

/* Looks at the components of one definition: S13. */
static void judge_methods(struct hinting *hinting, const struct definition *definition) {
    uint32_t before[128] = {0};
    for (uint32_t at = definition->first; at != NONE && tree_step(&hinting->grammars.tree, 1); at = hinting->grammars.components[at].next) {
        uint32_t node = hinting->grammars.components[at].node;
        char method = hint_node(hinting, node)->method;
        uint32_t other = method == '=' ? before['='] : method == '|' ? before['&'] : before['|'];
        if (other != 0 && hint_begins(hinting, node)) {
            add_part(hinting, definition->name.length == 0 ? (struct span){"start", 5} : definition->name);
            bytes_add_text(&hinting->text, method == '=' ? " is defined twice with =" : " is defined both with |= and with &=");
            add_other(hinting, other);
        }
        before[(unsigned char)method] = before[(unsigned char)method] == 0 ? node : before[(unsigned char)method];
    }
}

/* Whether two names differ only in case, or in one character. */
static bool is_similar(struct span one, struct span other) {
    size_t front = 0;
    size_t back = 0;
    size_t shorter = one.length < other.length ? one.length : other.length;
    size_t longer = one.length + other.length - shorter;
    size_t cases = 0;
    while (cases < shorter && one.length == other.length && (one.data[cases] | 0x20) == (other.data[cases] | 0x20)) {
        cases++;
    }
    while (front < shorter && one.data[front] == other.data[front]) {
        front++;
    }
    while (back < shorter - front && one.data[one.length - 1 - back] == other.data[other.length - 1 - back]) {
        back++;
    }
    return (cases == longer && longer > 0) || (shorter > 3 && longer - front - back <= 1);
}

/* Adds a name of the grammar that is nearly the one that is not found. */
static void add_similar(struct hinting *hinting, uint32_t scope, struct span name) {
    const struct grammars *grammars = &hinting->grammars;
    uint32_t left = MOST_SIMILAR;
    for (uint32_t at = grammars->scopes[scope].first; at != NONE && left > 0; at = grammars->definitions[at].next, left--) {
        if (is_similar(grammars->definitions[at].name, name)) {
            bytes_add_text(&hinting->text, "; is ");
            add_part(hinting, grammars->definitions[at].name);
            bytes_add_text(&hinting->text, " meant?");
            return;
        }
    }
}

/* S15 */
static void judge_reference(struct hinting *hinting, struct spot spot) {
    struct grammars *grammars = &hinting->grammars;
    const struct node *node = hint_node(hinting, spot.node);
    bool is_parent = node->kind == NODE_PARENT_REF;
    uint32_t around = grammars->scopes[spot.scope].around;
    uint32_t scope = is_parent ? around : spot.scope;
    if ((node->kind != NODE_REF && !is_parent) || definition_of(grammars, scope, node->text) != NONE || !hint_begins(hinting, spot.node)) {
        return;
    }
    if (scope == NONE) {
        bytes_add_text(&hinting->text, "no grammar is around this one, so parent finds nothing");
        return;
    }
    add_part(hinting, node->text);
    bytes_add_text(&hinting->text, is_parent ? " is not defined in the grammar around this one" : " is not defined");
    if (!is_parent && definition_of(grammars, around, node->text) != NONE) {
        bytes_add_text(&hinting->text, " in this grammar; the one around it has it (parent ");
        add_part(hinting, node->text);
        bytes_add_text(&hinting->text, ")");
    } else {
        add_similar(hinting, scope, node->text);
    }
}

struct lexical {
    struct hinting *hinting;
    struct spot *waiting;
    uint32_t count;
    uint32_t capacity;
};

static void wait_for(struct lexical *lexical, struct spot spot) {
    struct tree *tree = &lexical->hinting->grammars.tree;
    if (spot.node != 0 && array_grow(tree, (void **)&lexical->waiting, lexical->count, &lexical->capacity, sizeof *lexical->waiting)) {
        lexical->waiting[lexical->count++] = spot;
    }
}

/* Looks at all nodes of a pattern as it is written, and of patterns that are external. Nested grammars are gathered, and looked at later. */
static void judge_pattern(struct lexical *lexical, struct spot first) {
    struct hinting *hinting = lexical->hinting;
    wait_for(lexical, first);
    while (lexical->count > 0 && hinting->node == 0 && tree_step(&hinting->grammars.tree, 1)) {
        struct spot spot = lexical->waiting[--lexical->count];
        const struct node *node = hint_node(hinting, spot.node);
        wait_for(lexical, (struct spot){node->next, spot.scope, spot.setting});
        if (node->kind == NODE_EXTERNAL || node->kind == NODE_GRAMMAR) {
            wait_for(lexical, meaning_of(&hinting->grammars, spot).pattern);
            continue;
        }
        if (hinting->clause == 11) {
            judge_names(hinting, spot);
        } else if (hinting->clause == 12) {
            judge_type(hinting, spot);
        } else if (hinting->clause == 15) {
            judge_reference(hinting, spot);
        }
        wait_for(lexical, (struct spot){hint_node(hinting, spot.node)->child, spot.scope, spot.setting});
    }
    lexical->count = 0;
}

/* S14: the place is the keyword, or what is first in the file. */
static void judge_start(struct hinting *hinting, const struct scope *scope) {
    const struct tree_file *file = &hinting->grammars.tree.files[hinting->grammars.settings[scope->setting].file];
    uint32_t node = scope->node != 0 ? scope->node : file->components != 0 ? file->components : file->first;
    if (definition_of(&hinting->grammars, (uint32_t)(scope - hinting->grammars.scopes), (struct span){"", 0}) == NONE && hint_begins(hinting, node)) {
        bytes_add_text(&hinting->text, "the grammar that begins here has no start");
    }
}

/* S11 to S15: looks at all components of all grammars. */
static void judge_grammars(struct hinting *hinting) {
    struct grammars *grammars = &hinting->grammars;
    struct lexical lexical = {hinting, NULL, 0, 0};
    for (uint32_t scope = 0; scope < grammars->scope_count && hinting->node == 0; scope++) {
        for (uint32_t at = grammars->scopes[scope].first; at != NONE && hinting->node == 0; at = grammars->definitions[at].next) {
            struct definition definition = grammars->definitions[at];
            if (hinting->clause == 13) {
                judge_methods(hinting, &definition);
            }
            for (uint32_t component = definition.first; component != NONE && hinting->node == 0; component = grammars->components[component].next) {
                judge_pattern(&lexical, component_spot(grammars, &definition, component));
            }
            definition = grammars->definitions[at];
        }
        if (hinting->clause == 14 && !grammars->tree.failed) {
            judge_start(hinting, &grammars->scopes[scope]);
        }
    }
    free(lexical.waiting);
}

/* Looks for what breaks the clause. */
static void judge(struct hinting *hinting) {
    if (hinting->clause == 9) {
        judge_mentions(hinting);
    } else if (hinting->clause == 10) {
        judge_includes(hinting);
    } else if (grammars_open(&hinting->grammars)) {
        if (hinting->clause <= 15) {
            judge_grammars(hinting);
        } else {
            judge_restrictions(hinting);
        }
    }
}

/* S6: a name in an annotation that may not be there, in the first file that has one. */
static int find_annotation(const struct schema_hint_file *files, size_t count, struct schema_hint *hint, struct bytes *text) {
    struct annotations found = {false, NULL, 0};
    for (size_t at = 0; at < count && found.fault == NULL; at++) {
        struct bytes copy = NO_BYTES;
        bytes_add(&copy, files[at].bytes, files[at].length);
        if (copy.failed || (copy.length > 0 && !annotations_blank(copy.data, copy.length, &found))) {
            found.fault = NULL;
        }
        bytes_free(&copy);
        if (found.fault != NULL) {
            hint->file = at;
            find_place(&files[at], found.at, hint);
            bytes_add_text(text, found.fault);
        }
    }
    return found.fault != NULL;
}

/* The bytes of the character of UTF-8 that begins here; 0: none does. A code that no character has passes. */
static size_t character_at(const char *text, size_t left) {
    unsigned char lead = (unsigned char)text[0];
    size_t size = lead < 0x80 ? 1 : lead < 0xC2 ? 0 : lead < 0xE0 ? 2 : lead < 0xF0 ? 3 : lead < 0xF5 ? 4 : 0;
    for (size_t at = 1; at < size; at++) {
        if (at >= left || ((unsigned char)text[at] & 0xC0) != 0x80) {
            return 0;
        }
    }
    bool is_bad = size > 2 && ((lead == 0xE0 && (unsigned char)text[1] < 0xA0) || (lead == 0xED && (unsigned char)text[1] > 0x9F) ||
                               (lead == 0xF0 && (unsigned char)text[1] < 0x90) || (lead == 0xF4 && (unsigned char)text[1] > 0x8F));
    return is_bad ? 0 : size;
}

/* Puts the sentence into the hint, as far as it fits. Names of files may not be UTF-8. */
static void put_text(struct schema_hint *hint, struct bytes *text) {
    const char *sentence = bytes_text(text);
    size_t end = cut_at(sentence, strlen(sentence), SCHEMA_HINT_BYTES - 1);
    for (size_t at = 0, size = 0; at < end; at += size) {
        size = character_at(sentence + at, end - at);
        memcpy(hint->text + at, size == 0 ? "?" : sentence + at, size == 0 ? 1 : size);
        size += size == 0;
    }
    hint->text[end] = '\0';
}

int schema_hint_find(const struct schema_hint_file *files, size_t count, int clause, uint32_t datatypes, struct schema_hint *hint) {
    struct hinting *hinting = clause == 1 || clause == 6 || (clause >= 9 && clause <= 27 && clause != 17) ? calloc(1, sizeof *hinting) : NULL;
    int found = 0;
    if (hinting == NULL) {
        return 0;
    }
    hinting->clause = clause;
    hinting->is_of_profile = datatypes == SCHEMA_HINT_PROFILE;
    if (clause == 1) {
        found = find_missing(files, count, hint, &hinting->text);
    } else if (clause == 6) {
        found = find_annotation(files, count, hint, &hinting->text);
    } else if (tree_open(&hinting->grammars.tree, files, count)) {
        judge(hinting);
        const struct node *node = hint_node(hinting, hinting->node);
        found = hinting->node != 0 && !hinting->grammars.tree.failed;
        if (found != 0) {
            hint->file = node->file;
            find_place(&files[node->file], node->at, hint);
        }
    }
    found &= !hinting->text.failed;
    if (found != 0) {
        put_text(hint, &hinting->text);
    }
    grammars_close(&hinting->grammars);
    tree_close(&hinting->grammars.tree);
    bytes_free(&hinting->text);
    free(hinting);
    return found;
}
