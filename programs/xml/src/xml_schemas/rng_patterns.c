/* Patterns and components of a schema that is written. */
#include "rng_grammar.h"
#include "rng_uri.h"
#include "rng_writing.h"

enum { SHORT = 4 }; /* so many elements may be on one line */

const struct rng_node *rng_at(const struct rng_writer *writer, uint32_t index) {
    return &writer->tree->nodes[index];
}

void put_mark(struct rng_writer *writer, const struct rng_node *node) {
    writer->text->failed |= !origins_add(&writer->out->origins, writer->text->length, node->place);
}

/* The number of elements from this one on, with what is in them; if it is not short, any larger number. A grammar is never short. */
static int size_of(const struct rng_writer *writer, uint32_t first) {
    int count = 0;
    for (uint32_t at = first; at != 0 && count <= SHORT; at = rng_at(writer, at)->next) {
        count += rng_at(writer, at)->kind == RNG_GRAMMAR ? SHORT + 1 : 1 + size_of(writer, rng_at(writer, at)->first);
    }
    return count;
}

/* Writes a list, all on one line if it is short, else each pattern on a line of its own. */
static void put_list(struct rng_writer *writer, uint32_t first, char sign) {
    bool is_short = size_of(writer, first) <= SHORT;
    for (uint32_t at = first; at != 0; at = rng_at(writer, at)->next) {
        put_pattern(writer, at, LEVEL_PARTICLE);
        if (rng_at(writer, at)->next == 0) {
            return;
        }
        put(writer, sign == ',' ? "," : sign == '|' ? " |" : " &");
        if (is_short) {
            put(writer, " ");
        } else {
            put_line(writer);
        }
    }
}

/* Writes a list between brackets. */
static void put_enclosed(struct rng_writer *writer, uint32_t first, char sign, const char *open, const char *close) {
    bool is_short = size_of(writer, first) <= SHORT;
    bool is_single = rng_at(writer, first)->next == 0;
    bool is_brace = open[0] == '{';
    put(writer, open);
    writer->depth += !is_short;
    if (!is_short) {
        put_line(writer);
    } else {
        put(writer, is_brace ? " " : "");
    }
    if (is_single) {
        put_pattern(writer, first, LEVEL_PATTERN);
    } else {
        put_list(writer, first, sign);
    }
    writer->depth -= !is_short;
    if (!is_short) {
        put_line(writer);
    } else {
        put(writer, is_brace ? " " : "");
    }
    put(writer, close);
}

void put_patterns(struct rng_writer *writer, uint32_t first, char sign, enum level level) {
    if (rng_at(writer, first)->next == 0) {
        put_pattern(writer, first, level);
    } else if (level == LEVEL_PATTERN) {
        put_list(writer, first, sign);
    } else {
        put_enclosed(writer, first, sign, "(", ")");
    }
}

static void put_braces(struct rng_writer *writer, const struct rng_node *node, uint32_t first) {
    put_enclosed(writer, first, ',', "{", "");
    put_mark(writer, node);
    put(writer, "}");
}

/* Writes an element or an attribute. An attribute without a pattern has text. */
static void put_named(struct rng_writer *writer, const struct rng_node *node) {
    uint32_t body = rng_has_class(node) ? rng_at(writer, node->first)->next : node->first;
    put(writer, rng_kind_name(node->kind));
    put(writer, " ");
    put_name_class(writer, node);
    put(writer, " ");
    if (body == 0) {
        put(writer, "{ text }");
    } else {
        put_braces(writer, node, body);
    }
}

/* Writes a datatype, with its parameters. */
static void put_data(struct rng_writer *writer, const struct rng_node *node) {
    bool has_params = false;
    put_type(writer, node);
    for (uint32_t at = node->first; at != 0 && rng_at(writer, at)->kind == RNG_PARAM; at = rng_at(writer, at)->next) {
        const struct rng_node *param = rng_at(writer, at);
        put(writer, has_params ? " " : " { ");
        has_params = true;
        put_mark(writer, param);
        put_identifier(writer, rng_trimmed(param, RNG_AT_NAME));
        put(writer, " = ");
        put_literal(writer, param->text);
    }
    put_mark(writer, node);
    put(writer, has_params ? " }" : "");
}

/* Writes a datatype, perhaps with an except, which is its last child. */
static void put_data_except(struct rng_writer *writer, const struct rng_node *node, enum level level) {
    bool has_except = node->last != 0 && rng_at(writer, node->last)->kind == RNG_EXCEPT;
    bool is_in_parentheses = has_except && level != LEVEL_PATTERN;
    put(writer, is_in_parentheses ? "(" : "");
    put_data(writer, node);
    if (has_except) {
        put(writer, " - ");
        put_patterns(writer, rng_at(writer, node->last)->first, '|', LEVEL_PRIMARY);
    }
    put(writer, is_in_parentheses ? ")" : "");
}

/* Writes a pattern and its suffix. */
static void put_repeated(struct rng_writer *writer, const struct rng_node *node, enum level level) {
    put(writer, level == LEVEL_PRIMARY ? "(" : "");
    put_patterns(writer, node->first, ',', LEVEL_PRIMARY);
    put_mark(writer, node);
    put(writer, node->kind == RNG_OPTIONAL ? "?" : node->kind == RNG_ONE_OR_MORE ? "+" : "*");
    put(writer, level == LEVEL_PRIMARY ? ")" : "");
}

/* Writes a pattern that has no patterns in it. */
static void put_leaf(struct rng_writer *writer, const struct rng_node *node, uint32_t index) {
    switch (node->kind) {
    case RNG_REF:
    case RNG_PARENT_REF:
        put(writer, node->kind == RNG_REF ? "" : "parent ");
        put_identifier(writer, rng_trimmed(node, RNG_AT_NAME));
        break;
    case RNG_VALUE:
        put_value(writer, node);
        break;
    case RNG_EXTERNAL_REF:
        put_mention(writer, "external ", index);
        break;
    default: /* empty, text and notAllowed */
        put(writer, rng_kind_name(node->kind));
    }
}

/* Writes a grammar in a pattern. */
static void put_grammar(struct rng_writer *writer, const struct rng_node *node) {
    put(writer, "grammar {");
    writer->depth++;
    put_components(writer, node->first);
    writer->depth--;
    put_line(writer);
    put_mark(writer, node);
    put(writer, "}");
}

void put_pattern(struct rng_writer *writer, uint32_t index, enum level level) {
    const struct rng_node *node = rng_at(writer, index);
    put_mark(writer, node);
    switch (node->kind) {
    case RNG_ELEMENT:
    case RNG_ATTRIBUTE:
        put_named(writer, node);
        break;
    case RNG_GROUP:
    case RNG_CHOICE:
    case RNG_INTERLEAVE:
        put_patterns(writer, node->first, node->kind == RNG_GROUP ? ',' : node->kind == RNG_CHOICE ? '|' : '&', level);
        break;
    case RNG_LIST:
    case RNG_MIXED:
        put(writer, node->kind == RNG_LIST ? "list " : "mixed ");
        put_braces(writer, node, node->first);
        break;
    case RNG_OPTIONAL:
    case RNG_ZERO_OR_MORE:
    case RNG_ONE_OR_MORE:
        put_repeated(writer, node, level);
        break;
    case RNG_DATA:
        put_data_except(writer, node, level);
        break;
    case RNG_GRAMMAR:
        put_grammar(writer, node);
        break;
    default:
        put_leaf(writer, node, index);
    }
}

void put_mention(struct rng_writer *writer, const char *word, uint32_t index) {
    const struct rng_node *node = rng_at(writer, index);
    struct bytes href = NO_BYTES;
    struct bytes words = NO_BYTES;
    if (writer->fault->kind == FAULT_NONE) { /* else the text is of no use */
        add_by_bases(&href, writer->tree, index, node->values[RNG_AT_HREF]);
    }
    bytes_text(&href); /* the room for a zero after it */
    if (!href.failed && writer->naming != NULL && writer->fault->kind == FAULT_NONE) {
        if (!writer->naming->name(writer->naming->context, &href, node->place, &words, writer->fault)) {
            fault_set(writer->fault, FAULT_STOPPED, node->place, "stopped");
        }
    } else {
        bytes_add(&words, href.data, href.length);
    }
    put(writer, word);
    put_literal(writer, (struct span){words.data, words.length});
    put_inherit(writer, node);
    writer->text->failed |= href.failed || words.failed;
    bytes_free(&href);
    bytes_free(&words);
}

/* Writes the components in braces. */
static void put_block(struct rng_writer *writer, const struct rng_node *node) {
    put(writer, " {");
    writer->depth++;
    put_components(writer, node->first);
    writer->depth--;
    put_line(writer);
    put_mark(writer, node);
    put(writer, "}");
}

/* Writes a start or a define. */
static void put_definition(struct rng_writer *writer, const struct rng_node *node) {
    struct span combine = rng_trimmed(node, RNG_AT_COMBINE);
    bool is_short = size_of(writer, node->first) <= SHORT;
    if (node->kind == RNG_START) {
        put(writer, "start");
    } else {
        put_identifier(writer, rng_trimmed(node, RNG_AT_NAME));
    }
    put(writer, combine.data == NULL ? " =" : span_is(combine, "choice") ? " |=" : " &=");
    writer->depth++;
    if (is_short) {
        put(writer, " ");
    } else {
        put_line(writer);
    }
    put_patterns(writer, node->first, ',', LEVEL_PATTERN);
    writer->depth--;
}

void put_components(struct rng_writer *writer, uint32_t first) {
    for (uint32_t at = first; at != 0; at = rng_at(writer, at)->next) {
        const struct rng_node *node = rng_at(writer, at);
        put_line(writer);
        put_mark(writer, node);
        if (node->kind == RNG_DIV) {
            put(writer, "div");
            put_block(writer, node);
        } else if (node->kind == RNG_INCLUDE) {
            put_mention(writer, "include ", at);
            if (node->first != 0) {
                put_block(writer, node);
            }
        } else {
            put_definition(writer, node);
        }
    }
}
