#include "schema_walk.h"

#include "rng_tree.h"
#include "xml_names.h"

#include <stdlib.h>

enum { MOST_CALLS = 300 };

static void walk_components(struct walk *walk, size_t grammar, size_t include);

static struct walk_token *at(struct walk *walk, size_t index) {
    static struct walk_token none = {{TOKEN_NONE, {"", 0}, 0, 0}, ROLE_PLAIN};
    return index < walk->count ? &walk->list[index] : &none;
}

static const struct token *now(struct walk *walk) {
    return &at(walk, walk->next)->token;
}

static bool is_over(struct walk *walk) {
    return walk->is_odd || walk->failed || walk->next >= walk->count;
}

static bool grows(struct walk *walk, void **items, size_t count, size_t *capacity, size_t size) {
    walk->failed |= !rng_grow(items, count, capacity, size);
    return !walk->failed;
}

/* Gives the next token a role, and goes on. */
static void pass(struct walk *walk, enum role role) {
    if (is_over(walk)) {
        walk->is_odd = true;
        return;
    }
    walk->list[walk->next++].role = role;
}

/* Passes annotations, which nest. */
static void pass_notes(struct walk *walk) {
    size_t depth = 0;
    while (!is_over(walk) && (depth > 0 || is_sign(now(walk), '['))) {
        depth += is_sign(now(walk), '[');
        depth -= is_sign(now(walk), ']');
        pass(walk, ROLE_NOTE);
    }
}

static void want(struct walk *walk, char sign) {
    if (!is_sign(now(walk), sign)) {
        walk->is_odd = true;
    }
    pass(walk, ROLE_PLAIN);
}

static void open_bracket(struct walk *walk) {
    walk->depth++;
    walk->most_depth = walk->depth > walk->most_depth ? walk->depth : walk->most_depth;
    pass(walk, ROLE_PLAIN);
}

static void close_bracket(struct walk *walk) {
    walk->is_odd |= walk->depth == 0;
    walk->depth -= walk->depth > 0;
    pass(walk, ROLE_PLAIN);
}

/* Passes a literal with its joined segments. Adds its text, if that is wanted. */
static void pass_literal(struct walk *walk, struct bytes *text) {
    bool is_due = true;
    while (is_due && !is_over(walk)) {
        walk->is_odd |= now(walk)->kind != TOKEN_LITERAL;
        if (text != NULL) {
            add_literal(text, now(walk));
            walk->failed |= text->failed;
        }
        pass(walk, ROLE_PLAIN);
        is_due = is_sign(now(walk), '~');
        if (is_due) {
            pass(walk, ROLE_PLAIN);
        }
    }
}

static void pass_class(struct walk *walk, enum role role) {
    while (!is_over(walk) && !is_sign(now(walk), '{')) {
        bool is_class_name = now(walk)->kind == TOKEN_WORD || now(walk)->kind == TOKEN_NAME;
        if (is_sign(now(walk), '[')) {
            pass_notes(walk);
        } else if (is_sign(now(walk), '(')) {
            open_bracket(walk);
        } else if (is_sign(now(walk), ')')) {
            close_bracket(walk);
        } else {
            pass(walk, is_class_name ? role : ROLE_PLAIN);
        }
    }
}

/* Whether the meaning of the type's values may depend on the prefixes. */
static bool is_of_context(struct span type) {
    const char *colon = memchr(type.data, ':', type.length);
    size_t skipped = colon == NULL ? 0 : (size_t)(colon - type.data) + 1;
    struct span local = {type.data + skipped, type.length - skipped};
    return span_is(local, "QName") || span_is(local, "NOTATION");
}

static void pass_params(struct walk *walk) {
    open_bracket(walk);
    while (!is_over(walk) && !is_sign(now(walk), '}')) {
        pass_notes(walk);
        pass(walk, ROLE_PLAIN);
        want(walk, '=');
        pass_literal(walk, NULL);
    }
    close_bracket(walk);
}

/* Passes a datatype, with its value or its parameters. */
static void pass_type(struct walk *walk) {
    struct span type = now(walk)->text;
    pass(walk, has_colon(now(walk)) ? ROLE_TYPE : ROLE_PLAIN);
    if (now(walk)->kind == TOKEN_LITERAL) {
        walk->has_context |= is_of_context(type);
        pass_literal(walk, NULL);
    } else if (is_sign(now(walk), '{')) {
        pass_params(walk);
    }
}

/* Passes a mention up to its prefix. Returns its index. */
static size_t pass_mention(struct walk *walk, bool is_include, size_t grammar) {
    if (!grows(walk, (void **)&walk->mentions, walk->mention_count, &walk->mention_capacity, sizeof *walk->mentions)) {
        return 0;
    }
    size_t index = walk->mention_count++;
    struct mention *mention = &walk->mentions[index];
    *mention = (struct mention){is_include, NO_BYTES, walk->next, 0, 0, 0, {NULL, 0}, grammar, walk->depth};
    pass(walk, ROLE_PLAIN);
    pass_literal(walk, &mention->words);
    mention->named = walk->next;
    if (is_word(now(walk), "inherit")) {
        pass(walk, ROLE_PLAIN);
        want(walk, '=');
        mention->prefix = now(walk)->text;
        pass(walk, ROLE_PREFIX);
    }
    mention->end = walk->next;
    return index;
}

/* Whether a component begins here, outside all brackets of a pattern. */
static bool begins_component(struct walk *walk) {
    const struct token *token = now(walk);
    const struct token *second = &at(walk, walk->next + 1)->token;
    bool is_joined = is_sign(second, '|') || is_sign(second, '&');
    bool has_method = is_sign(second, '=') || (is_joined && is_sign(&at(walk, walk->next + 2)->token, '='));
    return is_word(token, "div") || is_word(token, "include") || ((is_word(token, "start") || is_identifier(token)) && has_method);
}

static void pass_grammar(struct walk *walk) {
    pass(walk, ROLE_PLAIN);
    walk->is_odd |= !is_sign(now(walk), '{') || walk->depth > MOST_CALLS;
    if (!is_over(walk)) {
        open_bracket(walk);
        walk_components(walk, walk->grammars++, 0);
        close_bracket(walk);
    }
}

/* Passes a part of a pattern that begins with a word or a name. */
static void pass_word(struct walk *walk) {
    const struct token *token = now(walk);
    if (is_word(token, "element") || is_word(token, "attribute")) {
        bool is_element = is_word(token, "element");
        pass(walk, ROLE_PLAIN);
        pass_class(walk, is_element ? ROLE_ELEMENT_NAME : ROLE_ATTRIBUTE_NAME);
    } else if (is_word(token, "external")) {
        pass_mention(walk, false, 0);
    } else if (is_word(token, "grammar")) {
        pass_grammar(walk);
    } else if (is_word(token, "string") || is_word(token, "token") || has_colon(token)) {
        pass_type(walk);
    } else {
        pass(walk, ROLE_PLAIN);
    }
}

/* Passes a pattern: up to what ends the component or the bracket around it. */
static void walk_pattern(struct walk *walk) {
    size_t around = walk->depth;
    while (!is_over(walk) && (walk->depth > around || !(is_sign(now(walk), '}') || begins_component(walk)))) {
        const struct token *token = now(walk);
        if (is_sign(token, '[')) {
            pass_notes(walk);
        } else if (is_sign(token, '{') || is_sign(token, '(')) {
            open_bracket(walk);
        } else if (is_sign(token, '}') || is_sign(token, ')')) {
            close_bracket(walk);
        } else if (token->kind == TOKEN_WORD || token->kind == TOKEN_NAME) {
            pass_word(walk);
        } else {
            pass(walk, ROLE_PLAIN);
        }
    }
    walk->is_odd |= walk->depth != around;
}

static void pass_component(struct walk *walk, size_t grammar, size_t include) {
    if (!grows(walk, (void **)&walk->components, walk->component_count, &walk->component_capacity, sizeof *walk->components)) {
        return;
    }
    size_t index = walk->component_count++;
    size_t mentions = walk->mention_count;
    struct span name = is_word(now(walk), "start") ? (struct span){"", 0} : now(walk)->text;
    walk->components[index] = (struct component){name, walk->next, 0, grammar, include, false};
    do {
        pass(walk, ROLE_PLAIN);
    } while (!is_over(walk) && now(walk)->kind == TOKEN_SIGN && !is_sign(now(walk), '='));
    want(walk, '=');
    walk_pattern(walk);
    walk->components[index].end = walk->next;
    walk->components[index].has_mention = walk->mention_count > mentions;
}

static void pass_include(struct walk *walk, size_t grammar) {
    size_t index = pass_mention(walk, true, grammar);
    if (!is_over(walk) && is_sign(now(walk), '{')) {
        walk->mentions[index].open = walk->next;
        open_bracket(walk);
        walk_components(walk, grammar, index + 1);
        close_bracket(walk);
        walk->mentions[index].end = walk->next;
    }
}

/* Passes components, up to the brace or the end of the file. */
static void walk_components(struct walk *walk, size_t grammar, size_t include) {
    while (!is_over(walk) && !is_sign(now(walk), '}')) {
        if (is_sign(now(walk), '[')) {
            pass_notes(walk);
        } else if (is_word(now(walk), "div")) {
            pass(walk, ROLE_PLAIN);
            walk->is_odd |= !is_sign(now(walk), '{') || walk->depth > MOST_CALLS;
            open_bracket(walk);
            walk_components(walk, grammar, include);
            close_bracket(walk);
        } else if (is_word(now(walk), "include")) {
            pass_include(walk, grammar);
        } else if (begins_component(walk)) {
            pass_component(walk, grammar, include);
        } else {
            walk->is_odd = true;
        }
    }
}

/* Keeps a declaration for a prefix. */
static void keep_declaration(struct walk *walk, const struct declaration *declaration, struct span prefix) {
    struct declaration kept = {prefix, declaration->is_library, declaration->is_inherit, NO_BYTES};
    bytes_add(&kept.value, declaration->value.data, declaration->value.length);
    walk->failed |= kept.value.failed;
    if (grows(walk, (void **)&walk->declarations, walk->declaration_count, &walk->declaration_capacity, sizeof *walk->declarations)) {
        walk->declarations[walk->declaration_count++] = kept;
    } else {
        bytes_free(&kept.value);
    }
}

/* Passes one declaration. `default namespace p` declares both. */
static void pass_declaration(struct walk *walk) {
    bool is_default = is_word(now(walk), "default");
    struct declaration declaration = {{"", 0}, is_word(now(walk), "datatypes"), false, NO_BYTES};
    pass(walk, ROLE_PLAIN);
    if (is_default) {
        pass(walk, ROLE_PLAIN);
    }
    if (!is_sign(now(walk), '=')) {
        declaration.prefix = now(walk)->text;
        pass(walk, ROLE_PLAIN);
    }
    want(walk, '=');
    declaration.is_inherit = is_word(now(walk), "inherit");
    if (declaration.is_inherit) {
        pass(walk, ROLE_PLAIN);
    } else {
        pass_literal(walk, &declaration.value);
    }
    keep_declaration(walk, &declaration, declaration.prefix);
    if (is_default && declaration.prefix.length > 0) {
        keep_declaration(walk, &declaration, (struct span){"", 0});
    }
    bytes_free(&declaration.value);
}

/* Reads all tokens. */
static bool read_tokens(struct walk *walk, const char *bytes, size_t length) {
    bool is_good = tokens_open(&walk->tokens, bytes, length);
    struct token token = {TOKEN_NONE, {NULL, 0}, length, length};
    do {
        token = is_good ? tokens_next(&walk->tokens) : token;
        if (token.kind != TOKEN_NONE && grows(walk, (void **)&walk->list, walk->count, &walk->capacity, sizeof *walk->list)) {
            walk->list[walk->count++] = (struct walk_token){token, ROLE_PLAIN};
        }
    } while (token.kind != TOKEN_NONE && !walk->failed);
    walk->failed |= !is_good;
    walk->is_odd |= token.at < length;
    return !walk->failed && !walk->is_odd;
}

bool walk_open(struct walk *walk, const char *bytes, size_t length) {
    memset(walk, 0, sizeof *walk);
    walk->grammars = 1;
    if (!read_tokens(walk, bytes, length)) {
        return false;
    }
    while (!is_over(walk) && (is_word(now(walk), "namespace") || is_word(now(walk), "default") || is_word(now(walk), "datatypes"))) {
        pass_declaration(walk);
    }
    walk->body = walk->next;
    pass_notes(walk);
    walk->is_grammar = walk->next >= walk->count || begins_component(walk);
    if (walk->is_grammar) {
        walk_components(walk, 0, 0);
    } else {
        walk_pattern(walk);
    }
    walk->is_odd |= walk->next < walk->count || walk->depth != 0;
    return !walk->is_odd && !walk->failed;
}

void walk_close(struct walk *walk) {
    for (size_t index = 0; index < walk->declaration_count; index++) {
        bytes_free(&walk->declarations[index].value);
    }
    for (size_t index = 0; index < walk->mention_count; index++) {
        bytes_free(&walk->mentions[index].words);
    }
    free(walk->list);
    free(walk->declarations);
    free(walk->components);
    free(walk->mentions);
    tokens_close(&walk->tokens);
    memset(walk, 0, sizeof *walk);
}
