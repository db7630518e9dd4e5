#include "schema_tree.h"

#include "schema_annotations.h"

#include <stdlib.h>
#include <string.h>

enum {
    MOST_NODES = 1000000,
    MOST_DEPTH = 300,        /* of calls in one another; brackets nest at most 128 deep */
    MOST_STEPS = 8000000,
    MOST_FILE = 1048576
};

struct parser {
    struct tree *tree;
    struct tree_file *file;
    uint16_t number;          /* of the file */
    struct token window[3];   /* the next tokens */
    int depth;
};

static uint32_t parse_pattern(struct parser *parser);
static uint32_t parse_class(struct parser *parser);
static uint32_t parse_content(struct parser *parser);

bool tree_step(struct tree *tree, uint64_t steps) {
    if (tree->failed || tree->steps < steps) {
        tree->failed = true;
        return false;
    }
    tree->steps -= steps;
    return true;
}

bool array_grow(struct tree *tree, void **items, uint32_t count, uint32_t *capacity, size_t size) {
    if (count < *capacity) {
        return true;
    }
    uint32_t wanted = *capacity == 0 ? 64 : 2 * *capacity;
    void *larger = count > MOST_NODES ? NULL : realloc(*items, wanted * size);
    if (larger == NULL) {
        tree->failed = true;
        return false;
    }
    *items = larger;
    *capacity = wanted;
    return true;
}

static uint32_t hash_of(const struct key *key) {
    uint32_t hash = 2166136261u;
    const uint32_t numbers[] = {key->tag, key->one, key->two, key->three};
    for (size_t at = 0; at < 4; at++) {
        hash = (hash ^ numbers[at]) * 16777619u;
        hash ^= hash >> 15;
    }
    for (size_t at = 0; at < key->text.length; at++) {
        hash = (hash ^ (unsigned char)key->text.data[at]) * 16777619u;
    }
    hash ^= hash >> 16;
    hash *= 0x7feb352du;
    return hash ^ (hash >> 15);
}

static bool key_equal(const struct key *one, const struct key *other) {
    return one->tag == other->tag && one->one == other->one && one->two == other->two && one->three == other->three &&
           span_equal(one->text, other->text);
}

/* The entry of a key, or the free one where it belongs; NULL: too many steps. */
static struct entry *entry_of(struct tree *tree, const struct key *key) {
    struct table *table = &tree->table;
    uint32_t mask = table->capacity - 1;
    for (uint32_t at = hash_of(key) & mask; tree_step(tree, 1 + key->text.length / 16); at = (at + 1) & mask) {
        struct entry *entry = &table->entries[at];
        if (!entry->is_taken || key_equal(&entry->key, key)) {
            return entry;
        }
    }
    return NULL;
}

/* Makes the table larger, so that it is at most half full. */
static bool table_grow(struct tree *tree) {
    struct table old = tree->table;
    uint32_t capacity = old.capacity == 0 ? 256 : 2 * old.capacity;
    struct entry *entries = capacity > 4 * MOST_NODES ? NULL : calloc(capacity, sizeof *entries);
    if (entries == NULL) {
        tree->failed = true;
        return false;
    }
    tree->table = (struct table){entries, old.count, capacity};
    for (uint32_t at = 0; at < old.capacity; at++) {
        struct entry *entry = old.entries[at].is_taken ? entry_of(tree, &old.entries[at].key) : NULL;
        if (entry != NULL) {
            *entry = old.entries[at];
        }
    }
    free(old.entries);
    return !tree->failed;
}

uint32_t *tree_value(struct tree *tree, const struct key *key) {
    if (2 * (tree->table.count + 1) > tree->table.capacity && !table_grow(tree)) {
        return NULL;
    }
    struct entry *entry = entry_of(tree, key);
    if (entry == NULL) {
        return NULL;
    }
    if (!entry->is_taken) {
        *entry = (struct entry){*key, NONE, true};
        tree->table.count++;
    }
    return &entry->value;
}

uint32_t tree_find(struct tree *tree, const struct key *key) {
    struct entry *entry = tree->table.capacity == 0 ? NULL : entry_of(tree, key);
    return entry == NULL || !entry->is_taken ? NONE : entry->value;
}

static void put(struct tree *tree, const struct key *key, uint32_t value) {
    uint32_t *place = tree_value(tree, key);
    if (place != NULL) {
        *place = value;
    }
}

uint32_t tree_uri(struct tree *tree, struct span uri) {
    struct key key = {KEY_URI, 0, 0, 0, uri};
    uint32_t *value = tree_value(tree, &key);
    if (value == NULL || *value != NONE) {
        return value == NULL ? 0 : *value;
    }
    *value = tree->uri_count;
    if (!array_grow(tree, (void **)&tree->uris, tree->uri_count, &tree->uri_capacity, sizeof *tree->uris)) {
        return 0;
    }
    tree->uris[tree->uri_count] = uri;
    return tree->uri_count++;
}

uint32_t tree_file_of(struct tree *tree, struct span name) {
    struct key key = {KEY_FILE, 0, 0, 0, name};
    return tree_find(tree, &key);
}

/* What breaks the grammar ends the tree. */
static uint32_t fails(struct parser *parser) {
    parser->tree->failed = true;
    return 0;
}

static struct token *now(struct parser *parser) {
    return &parser->window[0];
}

static void advance(struct parser *parser) {
    parser->window[0] = parser->window[1];
    parser->window[1] = parser->window[2];
    parser->window[2] = tokens_next(&parser->file->tokens);
    if ((parser->window[2].kind == TOKEN_NONE && parser->window[2].at < parser->file->given->length) || !tree_step(parser->tree, 1)) {
        fails(parser);
    }
}

static bool takes(struct parser *parser, char sign) {
    bool is_there = is_sign(now(parser), sign);
    if (is_there) {
        advance(parser);
    }
    return is_there;
}

static void wants(struct parser *parser, char sign) {
    if (!takes(parser, sign)) {
        fails(parser);
    }
}

/* An annotation is no part of the tree. */
static void skip_annotation(struct parser *parser) {
    long depth = 0;
    while (is_sign(now(parser), '[') || (depth > 0 && now(parser)->kind != TOKEN_NONE && !parser->tree->failed)) {
        depth += is_sign(now(parser), '[') - is_sign(now(parser), ']');
        advance(parser);
    }
}

static uint32_t add_node(struct parser *parser, enum node_kind kind, size_t at) {
    struct tree *tree = parser->tree;
    if (tree->failed || !array_grow(tree, (void **)&tree->nodes, tree->count, &tree->capacity, sizeof *tree->nodes)) {
        return 0;
    }
    tree->nodes[tree->count] = (struct node){.at = (uint32_t)at, .kind = (uint8_t)kind, .file = parser->number};
    return tree->count++;
}

static struct node *node_of(struct parser *parser, uint32_t node) {
    return &parser->tree->nodes[node];
}

/* The text of a literal, with its joined segments. */
static struct span literal(struct parser *parser) {
    struct bytes *literals = &parser->file->literals;
    size_t begin = literals->length;
    bool is_due = now(parser)->kind == TOKEN_LITERAL;
    if (!is_due) {
        fails(parser);
    }
    while (is_due && !parser->tree->failed) {
        add_literal(literals, now(parser));
        advance(parser);
        is_due = is_sign(now(parser), '~') && parser->window[1].kind == TOKEN_LITERAL;
        if (is_due) {
            advance(parser);
        }
    }
    return (struct span){literals->data == NULL ? "" : literals->data + begin, literals->length - begin};
}

/* `inherit = p`, if it is there. */
static struct span inherit(struct parser *parser) {
    struct span prefix = {NULL, 0};
    if (is_word(now(parser), "inherit")) {
        advance(parser);
        wants(parser, '=');
        prefix = now(parser)->text;
        advance(parser);
    }
    return prefix;
}

/* Joins a list of parts by a sign, and returns one node for it; a single part is itself. */
static uint32_t joined(struct parser *parser, enum node_kind kind, uint32_t first, uint32_t (*part)(struct parser *)) {
    char sign = now(parser)->text.data[0];
    uint32_t whole = add_node(parser, kind, now(parser)->at);
    node_of(parser, whole)->child = first;
    for (uint32_t last = first; is_sign(now(parser), sign) && !parser->tree->failed;) {
        advance(parser);
        uint32_t next = part(parser);
        node_of(parser, last)->next = next;
        last = next;
    }
    return whole;
}

static uint32_t parse_basic(struct parser *parser) {
    skip_annotation(parser);
    struct token token = *now(parser);
    uint32_t class = 0;
    if (takes(parser, '(')) {
        class = parse_class(parser);
        wants(parser, ')');
        return class;
    }
    bool is_any = is_sign(&token, '*');
    bool is_name = token.kind == TOKEN_WORD || token.kind == TOKEN_NAME;
    if (!is_any && !is_name) {
        return fails(parser);
    }
    bool is_names = is_name && token.text.length > 1 && token.text.data[token.text.length - 1] == '*';
    class = add_node(parser, is_any ? CLASS_ANY : is_names ? CLASS_NAMES : CLASS_NAME, token.at);
    node_of(parser, class)->text = token.text;
    advance(parser);
    return class;
}

static uint32_t parse_class(struct parser *parser) {
    if (parser->depth > MOST_DEPTH || parser->tree->failed) {
        return fails(parser);
    }
    parser->depth++;
    uint32_t class = parse_basic(parser);
    if (takes(parser, '-')) {
        uint32_t except = parse_basic(parser);
        node_of(parser, class)->child = except;
    } else if (is_sign(now(parser), '|')) {
        uint32_t at = node_of(parser, class)->at;
        class = joined(parser, CLASS_CHOICE, class, parse_basic);
        node_of(parser, class)->at = at;
    }
    parser->depth--;
    return class;
}

/* What is in braces. */
static uint32_t braced(struct parser *parser, uint32_t (*inside)(struct parser *)) {
    wants(parser, '{');
    uint32_t node = inside(parser);
    wants(parser, '}');
    return node;
}

/* An element or an attribute. Its text is its class as it is written, without the blanks at its end. */
static uint32_t parse_tag(struct parser *parser, enum node_kind kind) {
    uint32_t node = add_node(parser, kind, now(parser)->at);
    const char *bytes = parser->file->blanked.data;
    advance(parser);
    size_t begin = now(parser)->at;
    uint32_t class = parse_class(parser);
    size_t end = now(parser)->at;
    while (end > begin && memchr(" \t\r\n", bytes[end - 1], 4) != NULL) {
        end--;
    }
    uint32_t body = braced(parser, parse_pattern);
    node_of(parser, node)->text = (struct span){bytes + begin, end > begin ? end - begin : 0};
    node_of(parser, node)->class = class;
    node_of(parser, node)->child = body;
    return node;
}

static uint32_t parse_params(struct parser *parser) {
    uint32_t first = 0;
    uint32_t last = 0;
    for (skip_annotation(parser); !is_sign(now(parser), '}') && !parser->tree->failed; skip_annotation(parser)) {
        uint32_t param = add_node(parser, NODE_PARAM, now(parser)->at);
        struct span name = now(parser)->text;
        if (now(parser)->kind != TOKEN_WORD && now(parser)->kind != TOKEN_NAME) {
            return fails(parser);
        }
        advance(parser);
        wants(parser, '=');
        struct span value = literal(parser);
        node_of(parser, param)->text = name;
        node_of(parser, param)->other = value;
        node_of(parser, last)->next = last == 0 ? 0 : param;
        first = last == 0 ? param : first;
        last = param;
    }
    return first;
}

static uint32_t parse_primary(struct parser *parser);

/* A datatype, with a value or with parameters and an except. */
static uint32_t parse_type(struct parser *parser) {
    struct token type = *now(parser);
    bool has_type = type.kind != TOKEN_LITERAL;
    if (has_type) {
        advance(parser);
    }
    if (now(parser)->kind == TOKEN_LITERAL) {
        uint32_t node = add_node(parser, NODE_VALUE, type.at);
        struct span value = literal(parser);
        node_of(parser, node)->text = has_type ? type.text : (struct span){"", 0};
        node_of(parser, node)->other = value;
        return node;
    }
    uint32_t node = add_node(parser, NODE_DATA, type.at);
    uint32_t params = is_sign(now(parser), '{') ? braced(parser, parse_params) : 0;
    uint32_t except = takes(parser, '-') ? parse_primary(parser) : 0;
    node_of(parser, node)->text = type.text;
    node_of(parser, node)->class = params;
    node_of(parser, node)->child = except;
    return node;
}

/* A node with a name or without, and the tokens of it taken. */
static uint32_t parse_named(struct parser *parser, enum node_kind kind) {
    uint32_t node = add_node(parser, kind, now(parser)->at);
    if (kind == NODE_PARENT_REF) {
        advance(parser);
    }
    if ((kind == NODE_REF || kind == NODE_PARENT_REF) && !is_identifier(now(parser))) {
        return fails(parser);
    }
    node_of(parser, node)->text = now(parser)->text;
    advance(parser);
    return node;
}

static uint32_t parse_mention(struct parser *parser, enum node_kind kind) {
    advance(parser);
    uint32_t node = add_node(parser, kind, now(parser)->at);
    struct span name = literal(parser);
    struct span prefix = inherit(parser);
    node_of(parser, node)->text = name;
    node_of(parser, node)->other = prefix;
    struct tree *tree = parser->tree;
    if (array_grow(tree, (void **)&tree->mentions, tree->mention_count, &tree->mention_capacity, sizeof *tree->mentions)) {
        tree->mentions[tree->mention_count++] = node;
    }
    return node;
}

/* A keyword and what is in the braces after it. */
static uint32_t parse_braced(struct parser *parser, enum node_kind kind, uint32_t (*inside)(struct parser *)) {
    uint32_t node = add_node(parser, kind, now(parser)->at);
    advance(parser);
    uint32_t child = braced(parser, inside);
    node_of(parser, node)->child = child;
    return node;
}

static uint32_t parse_keyword(struct parser *parser) {
    struct token *token = now(parser);
    if (is_word(token, "element") || is_word(token, "attribute")) {
        return parse_tag(parser, is_word(token, "element") ? NODE_ELEMENT : NODE_ATTRIBUTE);
    }
    if (is_word(token, "list") || is_word(token, "mixed")) {
        return parse_braced(parser, is_word(token, "list") ? NODE_LIST : NODE_MIXED, parse_pattern);
    }
    if (is_word(token, "grammar")) {
        return parse_braced(parser, NODE_GRAMMAR, parse_content);
    }
    if (is_word(token, "external")) {
        return parse_mention(parser, NODE_EXTERNAL);
    }
    if (is_word(token, "string") || is_word(token, "token")) {
        return parse_type(parser);
    }
    enum node_kind kind = is_word(token, "empty") ? NODE_EMPTY : is_word(token, "text") ? NODE_TEXT : is_word(token, "notAllowed") ? NODE_NOT_ALLOWED
                        : is_word(token, "parent") ? NODE_PARENT_REF : NODE_NONE;
    return kind == NODE_NONE ? fails(parser) : parse_named(parser, kind);
}

static uint32_t parse_primary(struct parser *parser) {
    uint32_t node = 0;
    if (parser->depth > MOST_DEPTH || parser->tree->failed) {
        return fails(parser);
    }
    parser->depth++;
    skip_annotation(parser);
    if (takes(parser, '(')) {
        node = parse_pattern(parser);
        wants(parser, ')');
    } else if (now(parser)->kind == TOKEN_LITERAL || (now(parser)->kind == TOKEN_NAME && has_colon(now(parser)))) {
        node = parse_type(parser);
    } else if (is_identifier(now(parser))) {
        node = parse_named(parser, NODE_REF);
    } else {
        node = parse_keyword(parser);
    }
    parser->depth--;
    return node;
}

static uint32_t parse_particle(struct parser *parser) {
    uint32_t node = parse_primary(parser);
    struct token *token = now(parser);
    enum node_kind kind = is_sign(token, '?') ? NODE_OPTIONAL : is_sign(token, '*') ? NODE_STAR : is_sign(token, '+') ? NODE_PLUS : NODE_NONE;
    if (kind == NODE_NONE) {
        return node;
    }
    uint32_t whole = add_node(parser, kind, token->at);
    node_of(parser, whole)->child = node;
    advance(parser);
    return whole;
}

static uint32_t parse_pattern(struct parser *parser) {
    uint32_t first = parse_particle(parser);
    struct token *token = now(parser);
    enum node_kind kind = is_sign(token, ',') ? NODE_GROUP : is_sign(token, '&') ? NODE_INTERLEAVE : is_sign(token, '|') ? NODE_CHOICE : NODE_NONE;
    return kind == NODE_NONE || parser->tree->failed ? first : joined(parser, kind, first, parse_particle);
}

/* The method after the next token: = | & or nothing. */
static char method(struct parser *parser) {
    struct token *sign = &parser->window[1];
    if (is_sign(sign, '=')) {
        return '=';
    }
    bool has_two = (is_sign(sign, '|') || is_sign(sign, '&')) && is_sign(&parser->window[2], '=');
    return has_two ? sign->text.data[0] : '\0';
}

static bool begins_component(struct parser *parser) {
    struct token *token = now(parser);
    bool is_named = (is_word(token, "start") || is_identifier(token)) && method(parser) != '\0';
    return is_named || is_word(token, "div") || is_word(token, "include");
}

static uint32_t parse_component(struct parser *parser) {
    if (is_word(now(parser), "div")) {
        return parse_braced(parser, NODE_DIV, parse_content);
    }
    if (is_word(now(parser), "include")) {
        uint32_t node = parse_mention(parser, NODE_INCLUDE);
        uint32_t child = is_sign(now(parser), '{') ? braced(parser, parse_content) : 0;
        node_of(parser, node)->child = child;
        return node;
    }
    bool is_start = is_word(now(parser), "start");
    uint32_t node = add_node(parser, is_start ? NODE_START : NODE_DEFINE, now(parser)->at);
    char how = method(parser);
    node_of(parser, node)->text = is_start ? (struct span){"", 0} : now(parser)->text;
    node_of(parser, node)->method = how;
    for (int token = how == '=' ? 2 : 3; token > 0; token--) {
        advance(parser);
    }
    uint32_t child = parse_pattern(parser);
    node_of(parser, node)->child = child;
    return node;
}

static uint32_t parse_content(struct parser *parser) {
    uint32_t first = 0;
    uint32_t last = 0;
    if (++parser->depth > MOST_DEPTH) {
        return fails(parser);
    }
    for (skip_annotation(parser); begins_component(parser) && !parser->tree->failed; skip_annotation(parser)) {
        uint32_t node = parse_component(parser);
        node_of(parser, last)->next = last == 0 ? 0 : node;
        first = last == 0 ? node : first;
        last = node;
    }
    parser->depth--;
    return first;
}

/* One declaration: of a namespace, of the default one, or of a library of datatypes. */
static void parse_declaration(struct parser *parser) {
    bool is_default = is_word(now(parser), "default");
    bool is_library = is_word(now(parser), "datatypes");
    struct key key = {is_library ? KEY_LIBRARY : KEY_PREFIX, parser->number, 0, 0, {NULL, 0}};
    advance(parser);
    if (is_default) {
        advance(parser);
    }
    if (now(parser)->kind == TOKEN_WORD || now(parser)->kind == TOKEN_NAME) {
        key.text = now(parser)->text;
        advance(parser);
    }
    wants(parser, '=');
    uint32_t uri = INHERITED;
    if (is_word(now(parser), "inherit")) {
        advance(parser);
    } else {
        uri = tree_uri(parser->tree, literal(parser));
    }
    if (key.text.length > 0) {
        put(parser->tree, &key, uri);
    }
    if (is_default) {
        parser->file->default_namespace = uri;
    }
}

/* The components of the file. A pattern is a start. */
static void parse_file(struct parser *parser) {
    struct tree_file *file = parser->file;
    while ((is_word(now(parser), "namespace") || is_word(now(parser), "default") || is_word(now(parser), "datatypes")) && !parser->tree->failed) {
        parse_declaration(parser);
    }
    skip_annotation(parser);
    file->first = add_node(parser, NODE_NONE, now(parser)->kind == TOKEN_NONE ? 0 : now(parser)->at);
    if (now(parser)->kind == TOKEN_NONE || begins_component(parser)) {
        file->is_grammar = true;
        file->components = parse_content(parser);
    } else {
        size_t at = now(parser)->at;
        uint32_t pattern = parse_pattern(parser);
        file->is_grammar = node_of(parser, pattern)->kind == NODE_GRAMMAR;
        file->components = file->is_grammar ? node_of(parser, pattern)->child : add_node(parser, NODE_START, at);
        if (!file->is_grammar) {
            node_of(parser, file->components)->child = pattern;
            node_of(parser, file->components)->method = '=';
        }
    }
    if (now(parser)->kind != TOKEN_NONE) {
        fails(parser);
    }
}

/* Makes the text that the library gets of a file: a hint has its places in the file as it is written. False: out of memory. */
static bool blank_annotations(struct tree_file *file) {
    struct annotations found;
    bytes_add(&file->blanked, file->given->bytes, file->given->length);
    return !file->blanked.failed && annotations_blank(file->blanked.data, file->blanked.length, &found);
}

/* Reads a file. Its literals get their room at once, since the tree points into it. */
static bool read_file(struct tree *tree, size_t number) {
    struct tree_file *file = &tree->files[number];
    struct parser parser = {.tree = tree, .file = file, .number = (uint16_t)number};
    file->is_read = true;
    tree->failed |= file->given->length > MOST_FILE;
    if (tree->failed || !blank_annotations(file) || !tokens_open(&file->tokens, file->blanked.data, file->blanked.length) ||
        !bytes_reserve(&file->literals, file->tokens.text.length + 1)) {
        tree->failed = true;
        return false;
    }
    for (int token = 0; token < 3; token++) {
        advance(&parser);
    }
    parse_file(&parser);
    return !tree->failed;
}

/* Reads the main file, and each file that a file mentions. */
static bool read_files(struct tree *tree) {
    bool is_good = read_file(tree, 0);
    for (uint32_t at = 0; is_good && at < tree->mention_count; at++) {
        uint32_t file = tree_file_of(tree, tree->nodes[tree->mentions[at]].text);
        is_good = file != NONE && (tree->files[file].is_read || read_file(tree, file));
    }
    return is_good && !tree->failed;
}

bool tree_open(struct tree *tree, const struct schema_hint_file *files, size_t count) {
    memset(tree, 0, sizeof *tree);
    tree->steps = MOST_STEPS;
    if (count == 0 || count > MOST_TREE_FILES ||
        !array_grow(tree, (void **)&tree->nodes, 0, &tree->capacity, sizeof *tree->nodes)) {
        return false;
    }
    tree->file_count = count;
    tree->nodes[0] = (struct node){.kind = NODE_NONE};
    tree->count = 1;
    tree_uri(tree, (struct span){"", 0});
    for (size_t at = count; at-- > 0;) {
        struct key key = {KEY_FILE, 0, 0, 0, {files[at].name, files[at].name_length}};
        tree->files[at].given = &files[at];
        tree->files[at].default_namespace = INHERITED;
        put(tree, &key, (uint32_t)at);
    }
    return read_files(tree);
}

void tree_close(struct tree *tree) {
    for (size_t at = 0; at < tree->file_count; at++) {
        tokens_close(&tree->files[at].tokens);
        bytes_free(&tree->files[at].literals);
        bytes_free(&tree->files[at].blanked);
    }
    free(tree->nodes);
    free(tree->mentions);
    free(tree->table.entries);
    free(tree->uris);
}
