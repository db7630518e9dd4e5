/* Attributes that libxml2 does not get: it compares those of a tag in pairs, and holds them all. Once it has got some attributes of a tag, the others are read
 * here, but for declarations of namespaces and for what is unusual. Each of them is well-formed (XML 1.0, 40 and 41, Namespaces in XML 1.0, 15). */
#ifndef WIDE_TAGS_H
#define WIDE_TAGS_H

#include "shortening.h"

#ifndef USUAL_WIDTH
#define USUAL_WIDTH 1000 /* attributes that libxml2 gets of each tag */
#endif

#ifndef MOST_AHEAD
#define MOST_AHEAD 1048576 /* bytes of an attribute that is read here */
#endif

/* An attribute, by places in the text. */
struct wide_attribute {
    size_t name;
    size_t name_length;
    size_t value; /* it ends where the next name begins */
    size_t value_length;
};

/* Set it to zero. */
struct wide_tag {
    struct bytes text; /* the names as they are written, and the values */
    struct wide_attribute *attributes;
    size_t count;
    size_t capacity;
    uint64_t behind; /* the offset behind those that were left out last, .. */
    uint64_t left;   /* .. and how many bytes they are */
};

/* What is at the start of a text: blanks, a name, and the value with its quotes. */
struct attribute_text {
    size_t length; /* 0: no attribute that can be read here */
    bool is_cut;   /* it may be one if there is more of the text */
    struct span name;
    struct span value; /* without the quotes */
};

/* In a document of XML 1.0 or 1.1. */
struct attribute_text attribute_at(struct span text);

/* How references in values are read. */
struct reference_reader {
    expand_reference *expand;
    void *context;
};

/* Adds the attribute. False: its value has a reference that can not be read here, or memory ran out, and then the text has failed. */
bool wide_tag_add(struct wide_tag *tag, const struct attribute_text *attribute, const struct reference_reader *reader);

/* Forgets the attributes of a tag. */
void wide_tag_forget(struct wide_tag *tag);
void wide_tag_free(struct wide_tag *tag);

size_t wide_tag_held(const struct wide_tag *tag);

struct span wide_tag_name(const struct wide_tag *tag, size_t index);

/* The value, which may be made shorter in its place. */
char *wide_tag_value(const struct wide_tag *tag, size_t index, size_t *length);

#endif
