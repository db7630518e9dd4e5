/* The text of a file with others in it. */
#include "rng_writing.h"
#include "schema_merging.h"
#include "schema_walk.h"

#include <stdlib.h>

static const char xml_uri[] = "http://www.w3.org/XML/1998/namespace";

/* A namespace or a library of datatypes, and the prefix that was made for it. */
struct made {
    bool is_library;
    bool is_inherit; /* the namespace that the file inherits */
    struct span uri; /* a part of a file's walk, or of `kept` */
    struct bytes kept;
};

struct uri {
    bool is_library;
    bool is_inherit;
    struct span text;
};

struct merger {
    struct schema_files *files;
    const bool *is_merged;
    struct bytes text;
    struct made *made;
    size_t made_count, made_capacity;
    char stem[16]; /* of the prefixes that are made */
    bool failed;
};

/* A file whose tokens are copied. */
struct source {
    const struct bytes *text;
    struct walk walk;
    struct uri inherited;
    size_t last;        /* the token that was written last, plus 1 */
    const struct span *overridden; /* sorted */
    size_t overridden_count;
};

size_t file_of_name(const struct schema_files *files, const struct bytes *name, bool *is_twice) {
    size_t found = SIZE_MAX;
    *is_twice = false;
    for (size_t at = 0; at < files->count; at++) {
        const struct bytes *other = &files->list[at].name;
        bool is_it = other->length == name->length && (name->length == 0 || memcmp(other->data, name->data, name->length) == 0);
        *is_twice |= is_it && found != SIZE_MAX;
        found = is_it && found == SIZE_MAX ? at : found;
    }
    return found;
}

static int compare_spans(const void *one, const void *other) {
    const struct span *left = one;
    const struct span *right = other;
    size_t shared = left->length < right->length ? left->length : right->length;
    int order = shared == 0 ? 0 : memcmp(left->data, right->data, shared);
    return order != 0 ? order : (left->length > right->length) - (left->length < right->length);
}

static bool source_open(struct source *source, const struct schema_file *file, struct uri inherited) {
    *source = (struct source){.text = schema_file_handed(file), .inherited = inherited};
    return walk_open(&source->walk, source->text->data, source->text->length);
}

/* Puts the blanks before a token, without comments. Lines end where there was an end of a line. An escape may be a blank too. */
static void put_gap(struct merger *merger, const struct source *source, size_t index) {
    const char *data = source->text->data;
    size_t at = index == 0 ? 0 : source->walk.list[index - 1].token.end;
    size_t end = source->walk.list[index].token.at;
    size_t line = SIZE_MAX; /* behind the last end of a line */
    bool is_far = source->last != index || at < end;
    for (; at < end && data[at] != '\\'; at++) {
        line = data[at] == '\n' || data[at] == '\r' ? at + 1 : line;
    }
    if (at < end) {
        bytes_add_byte(&merger->text, '\n');
    } else if (line != SIZE_MAX) {
        bytes_add_byte(&merger->text, '\n');
        bytes_add(&merger->text, data + line, end - line);
    } else if (is_far) {
        bytes_add_byte(&merger->text, ' ');
    }
}

/* Puts a blank, unless one is there. */
static void put_blank(struct merger *merger) {
    size_t length = merger->text.length;
    bool is_there = length > 0 && memchr(" \n\t\r(", merger->text.data[length - 1], 5) != NULL;
    bytes_add_text(&merger->text, is_there ? "" : " ");
}

/* Copies a token. */
static void put_token(struct merger *merger, struct source *source, size_t index) {
    const struct token *token = &source->walk.list[index].token;
    put_gap(merger, source, index);
    bytes_add(&merger->text, source->text->data + token->at, token->end - token->at);
    source->last = index + 1;
}

/* What a prefix of the source means. */
static struct uri uri_of(const struct source *source, struct span prefix, bool is_library) {
    for (size_t at = 0; at < source->walk.declaration_count; at++) {
        const struct declaration *declaration = &source->walk.declarations[at];
        if (declaration->is_library == is_library && span_equal(declaration->prefix, prefix)) {
            struct uri uri = {is_library, false, {declaration->value.data, declaration->value.length}};
            return declaration->is_inherit ? source->inherited : uri;
        }
    }
    return source->inherited;
}

/* The number of the prefix that is made for a uri. */
static size_t number_of(struct merger *merger, struct uri uri) {
    for (size_t at = 0; at < merger->made_count; at++) {
        const struct made *made = &merger->made[at];
        bool is_kind = made->is_library == uri.is_library && made->is_inherit == uri.is_inherit;
        if (is_kind && (uri.is_inherit || span_equal(made->uri, uri.text))) {
            return at + 1;
        }
    }
    if (!rng_grow((void **)&merger->made, merger->made_count, &merger->made_capacity, sizeof *merger->made)) {
        merger->failed = true;
        return 0;
    }
    struct made *made = &merger->made[merger->made_count++];
    *made = (struct made){uri.is_library, uri.is_inherit, {"", 0}, NO_BYTES};
    bytes_add(&made->kept, uri.text.data, uri.text.length);
    made->uri = (struct span){made->kept.data == NULL ? "" : made->kept.data, made->kept.length};
    merger->failed |= made->kept.failed;
    return merger->made_count;
}

static void put_prefix(struct merger *merger, struct uri uri) {
    bytes_format(&merger->text, "%s%zu", merger->stem, number_of(merger, uri));
}

/* Puts a name with another prefix, or a prefix alone. `xml` and `xsd` are declared everywhere. */
static void put_renamed(struct merger *merger, struct source *source, size_t index) {
    const struct walk_token *token = &source->walk.list[index];
    struct span name = token->token.text;
    const char *colon = token->role == ROLE_PREFIX ? name.data + name.length : memchr(name.data, ':', name.length);
    struct span prefix = {name.data, colon == NULL ? 0 : (size_t)(colon - name.data)};
    size_t skipped = prefix.length + (colon != NULL && token->role != ROLE_PREFIX);
    put_gap(merger, source, index);
    put_blank(merger);
    if (span_is(prefix, token->role == ROLE_TYPE ? "xsd" : "xml")) {
        bytes_add(&merger->text, prefix.data, prefix.length);
    } else {
        put_prefix(merger, uri_of(source, prefix, token->role == ROLE_TYPE));
    }
    if (token->role != ROLE_PREFIX) {
        bytes_add_byte(&merger->text, ':');
        bytes_add(&merger->text, name.data + skipped, name.length - skipped);
    }
    source->last = index + 1;
}

/* Puts a token of a file that is written into another one. */
static void put_moved(struct merger *merger, struct source *source, size_t index) {
    const struct walk_token *token = &source->walk.list[index];
    bool is_renamed = token->role == ROLE_ELEMENT_NAME || token->role == ROLE_TYPE || token->role == ROLE_PREFIX ||
                      (token->role == ROLE_ATTRIBUTE_NAME && has_colon(&token->token));
    if (is_renamed) {
        put_renamed(merger, source, index);
    } else if (token->role != ROLE_NOTE) {
        put_token(merger, source, index);
    }
}

/* Says which namespace an `external` that ends before this token inherits, if it does not say so itself. */
static void put_inherited(struct merger *merger, struct source *source, const struct mention *mention, size_t index) {
    if (mention->named == index && mention->prefix.data == NULL) {
        bytes_add_text(&merger->text, " inherit = ");
        put_prefix(merger, uri_of(source, (struct span){"", 0}, false));
        bytes_add_byte(&merger->text, ' ');
    }
}

/* Puts the components of a file that are not overridden. */
static void put_components_of(struct merger *merger, struct source *source) {
    const struct walk *walk = &source->walk;
    size_t component = 0;
    size_t mention = 0;
    for (size_t at = walk->body; at < walk->count && !merger->failed;) {
        while (component < walk->component_count && walk->components[component].first < at) {
            component++;
        }
        const struct component *here = component < walk->component_count && walk->components[component].first == at ? &walk->components[component] : NULL;
        if (here != NULL && here->grammar == 0 && source->overridden_count > 0 &&
            bsearch(&here->name, source->overridden, source->overridden_count, sizeof here->name, compare_spans) != NULL) {
            at = here->end;
            continue;
        }
        put_moved(merger, source, at++);
        while (mention < walk->mention_count && walk->mentions[mention].named < at) {
            mention++;
        }
        if (mention < walk->mention_count) {
            put_inherited(merger, source, &walk->mentions[mention], at);
        }
    }
}

/* The names that the braces of an include have, sorted. NULL: out of memory. */
static struct span *overrides_of(const struct walk *walk, size_t mention, size_t *count) {
    struct span *names = calloc(walk->component_count + 1, sizeof *names);
    *count = 0;
    for (size_t at = 0; names != NULL && at < walk->component_count; at++) {
        if (walk->components[at].include == mention + 1) {
            names[(*count)++] = walk->components[at].name;
        }
    }
    if (names != NULL) {
        qsort(names, *count, sizeof *names, compare_spans);
    }
    return names;
}

/* Puts the file that an include mentions. */
static void put_included(struct merger *merger, struct source *source, size_t mention, size_t file) {
    struct source included;
    size_t count;
    struct span prefix = source->walk.mentions[mention].prefix;
    struct span *names = overrides_of(&source->walk, mention, &count);
    struct uri inherited = uri_of(source, prefix.data == NULL ? (struct span){"", 0} : prefix, false);
    if (span_is(prefix, "xml")) {
        inherited = (struct uri){false, false, {xml_uri, sizeof xml_uri - 1}};
    }
    merger->failed |= names == NULL || !source_open(&included, &merger->files->list[file], inherited);
    if (names == NULL) {
        return;
    }
    included.overridden = names;
    included.overridden_count = count;
    if (!merger->failed) {
        put_components_of(merger, &included);
    }
    walk_close(&included.walk);
    free(names);
}

static void put_include(struct merger *merger, struct source *source, size_t index, size_t file);

/* The file that is merged where this mention is; SIZE_MAX: none is. */
static size_t merged_at(const struct merger *merger, const struct mention *mention) {
    bool is_twice;
    size_t file = mention->is_include ? file_of_name(merger->files, &mention->words, &is_twice) : SIZE_MAX;
    return file != SIZE_MAX && merger->is_merged[file] ? file : SIZE_MAX;
}

/* Puts the tokens from one to another, with what is included there. */
static void put_tokens(struct merger *merger, struct source *source, size_t first, size_t end) {
    const struct walk *walk = &source->walk;
    size_t mention = 0;
    for (size_t at = first; at < end && !merger->failed;) {
        while (mention < walk->mention_count && walk->mentions[mention].first < at) {
            mention++;
        }
        bool is_mention = mention < walk->mention_count && walk->mentions[mention].first == at;
        size_t file = is_mention ? merged_at(merger, &walk->mentions[mention]) : SIZE_MAX;
        if (file != SIZE_MAX) {
            put_include(merger, source, mention, file);
            at = walk->mentions[mention].end;
        } else if (walk->list[at].role == ROLE_NOTE) {
            at++;
        } else {
            put_token(merger, source, at++);
        }
    }
}

/* Puts an include of a file that is merged. What is in its braces is of this file. */
static void put_include(struct merger *merger, struct source *source, size_t index, size_t file) {
    const struct mention *mention = &source->walk.mentions[index];
    put_gap(merger, source, mention->first);
    bytes_add_text(&merger->text, "div {");
    put_included(merger, source, index, file);
    if (mention->open != 0) {
        put_tokens(merger, source, mention->open + 1, mention->end - 1);
    }
    bytes_add_text(&merger->text, "\n}");
    source->last = mention->end;
}

/* Finds a beginning of prefixes that the text has nowhere with a digit after it. */
static void choose_stem(struct merger *merger, const struct bytes *text) {
    bool is_there = true;
    for (size_t length = 1; is_there && length < sizeof merger->stem; length++) {
        memset(merger->stem, 'm', length);
        merger->stem[length] = '\0';
        is_there = false;
        for (size_t at = 0; at + length < text->length && !is_there; at++) {
            char next = text->data[at + length];
            is_there = next >= '0' && next <= '9' && memcmp(text->data + at, merger->stem, length) == 0;
        }
    }
    merger->failed |= is_there;
}

/* Puts the declarations of the prefixes that were made. */
static void put_made(const struct merger *merger, struct bytes *head) {
    for (size_t at = 0; at < merger->made_count; at++) {
        const struct made *made = &merger->made[at];
        struct rng_writer writer = {.text = head};
        bytes_format(head, "%s %s%zu = ", made->is_library ? "datatypes" : "namespace", merger->stem, at + 1);
        if (made->is_inherit) {
            bytes_add_text(head, "inherit");
        } else {
            put_literal(&writer, made->uri);
        }
        bytes_add_byte(head, '\n');
    }
}

/* Makes what was written the text of the file. */
static void take_text(struct merger *merger, struct schema_file *file) {
    struct bytes head = NO_BYTES;
    put_made(merger, &head);
    bytes_add(&head, merger->text.data, merger->text.length);
    bytes_add_byte(&head, '\n');
    merger->failed |= head.failed || merger->text.failed;
    bytes_free(&file->merged);
    file->merged = head;
}

bool merge_write(struct schema_files *files, const bool *is_merged, size_t index) {
    struct merger merger = {.files = files, .is_merged = is_merged};
    struct source source;
    bool is_good = source_open(&source, &files->list[index], (struct uri){false, true, {"", 0}});
    merger.failed = !is_good;
    if (is_good) {
        choose_stem(&merger, &source.walk.tokens.text);
        put_tokens(&merger, &source, 0, source.walk.count);
    }
    if (is_good) {
        take_text(&merger, &files->list[index]);
    }
    for (size_t at = 0; at < merger.made_count; at++) {
        bytes_free(&merger.made[at].kept);
    }
    free(merger.made);
    bytes_free(&merger.text);
    walk_close(&source.walk);
    return !merger.failed;
}
