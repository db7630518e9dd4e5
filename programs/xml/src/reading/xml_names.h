/* Names and blanks, by XML 1.0 Fifth Edition and Namespaces in XML 1.0. Texts are UTF-8. */
#ifndef XML_NAMES_H
#define XML_NAMES_H

#include "bytes.h"

#include <stdint.h>

/* Whether a character is in names; `is_first`: at their beginning. */
bool is_name_character(uint32_t code, bool is_first);

/* The code point that begins at this byte, and its bytes. */
uint32_t code_point(struct span text, size_t at, size_t *size);

/* Whether the text is an NCName. */
bool is_ncname(struct span text);

/* Whether the text is an NCName, or two with a colon between. `colon` is then the place of the colon; 0 if there is none. */
bool is_qname(struct span text, size_t *colon);

bool is_blank_byte(char byte);
/* Whether the text has blanks alone. */
bool is_blank_text(struct span text);
/* The text without the blanks at its ends. */
struct span without_blanks(struct span text);

bool span_equal(struct span one, struct span other);
bool span_is(struct span span, const char *text);

#endif
