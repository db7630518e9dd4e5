/* The writing of a schema, as its parts share it. */
#ifndef RNG_WRITING_H
#define RNG_WRITING_H

#include "rng_prefixes.h"
#include "rng_writer.h"
#include "xml_names.h"

/* What may stand at a place without parentheses (the grammar of the compact syntax): anything, no joined patterns, no suffix either. */
enum level { LEVEL_PATTERN, LEVEL_PARTICLE, LEVEL_PRIMARY };

struct rng_writer {
    const struct rng_tree *tree;
    const struct rng_naming *naming;
    struct fault *fault;
    struct bytes *text;
    struct rng_text *out;
    struct rng_prefixes namespaces;
    struct rng_prefixes libraries;
    struct span default_ns; /* the namespace of the root element; no data: the one that the file inherits */
    int depth;              /* of the indentation */
};

const struct rng_node *rng_at(const struct rng_writer *writer, uint32_t index);

/* From here on the text is written for this element. */
void put_mark(struct rng_writer *writer, const struct rng_node *node);
void put(struct rng_writer *writer, const char *text);
void put_span(struct rng_writer *writer, struct span text);
/* Ends the line, and indents the next one. */
void put_line(struct rng_writer *writer);
void put_identifier(struct rng_writer *writer, struct span name);
void put_literal(struct rng_writer *writer, struct span text);

/* Writes the name class of an element or attribute. */
void put_name_class(struct rng_writer *writer, const struct rng_node *node);
/* Writes a datatype's name, and the literal of a value, with its prefixes. */
void put_type(struct rng_writer *writer, const struct rng_node *node);
void put_value(struct rng_writer *writer, const struct rng_node *node);
/* Writes the namespace that a mention passes on, if that is not the default one. */
void put_inherit(struct rng_writer *writer, const struct rng_node *node);
/* Writes the declarations. */
void put_declarations(struct rng_writer *writer);

void put_pattern(struct rng_writer *writer, uint32_t index, enum level level);
/* Writes a list of patterns, joined by the sign. */
void put_patterns(struct rng_writer *writer, uint32_t first, char sign, enum level level);
/* Writes the word of a mention, and the words for its file. */
void put_mention(struct rng_writer *writer, const char *word, uint32_t index);
void put_components(struct rng_writer *writer, uint32_t first);

#endif
