/* Writes the text of an entity for libxml2 where libxml2 would read another text than XML does: it takes a carriage return for a line feed, and a blank that
 * a reference gives in the value of an attribute for a space, and a percent sign of an instruction for a reference. */
#ifndef ENTITY_TEXT_H
#define ENTITY_TEXT_H

#include "bytes.h"

/* What is put in the place of references to entities. */
struct entity_source {
    /* Gives the text to put there. False: the reference stays. The reference is in the value of an attribute, or else in content. */
    bool (*open)(void *context, struct span name, bool is_in_value, struct span *text);
    void (*close)(void *context); /* comes once that text has been put there. Entities in it are opened and closed before */
    void *context;
};

/* Whether a text has a reference to a blank other than a space, as `&#9;`. */
bool has_blank_reference(struct span text);

/* Takes the text up to the next reference to an entity off the front. Comments, instructions and CDATA sections have none. False: there is none. */
bool entity_text_next(struct span *rest, struct span *name);

/* The length of the comment, the instruction or the CDATA section at the start of the text; 0: there is none. */
size_t entity_text_section(struct span text);

/* Adds the text of a parameter entity, with this mark before each percent sign that begins the data of an instruction: libxml2 takes it for a reference. A
 * carriage return in the value of an entity becomes a reference. */
extern const char instruction_mark[];
void entity_text_declarations(struct span text, struct bytes *to);

/* Whether the text of a parameter entity may have one of these. */
bool entity_text_is_read_otherwise(const char *text);

/* Whether a text of declarations has no begun declaration, comment or instruction at its end. */
bool entity_text_is_whole(struct span text);

/* Adds the text of an entity for content: carriage returns as references, and texts in the place of references to entities. */
void entity_text_content(struct span text, const struct entity_source *source, struct bytes *to);

/* Adds the text of an entity for the value of an attribute in the same way. */
void entity_text_value(struct span text, const struct entity_source *source, struct bytes *to);

/* Adds the text of an entity for a value of the document itself: libxml2 gets a mark for each reference to a blank. No document has the marks. */
void entity_text_marked(struct span text, struct bytes *to);

/* Adds the character that the reference at the start of a text gives, by a number or as one of the five that each document has. Returns the length of the
 * reference; 0: there is none, or it is one to an entity of the document. */
size_t entity_text_character(struct span text, struct bytes *to);

/* Adds what the reference at the start of a text is in the literal of an entity: a character by its number, or the reference as it is. Returns its length; 0:
 * there is none, or it breaks XML. */
size_t entity_text_kept(struct span text, struct bytes *to);

/* Adds a text as the value of an attribute. False: it has a reference that is none to a character, or begins markup. */
bool entity_text_decoded(struct span text, struct bytes *to);

/* Whether a value has marks. */
bool has_blank_marks(struct span value);

/* Adds a value with the blanks in the place of their marks. */
void add_unmarked(struct span value, struct bytes *to);

#endif
