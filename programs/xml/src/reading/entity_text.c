#include "entity_text.h"

#include "xml_names.h"

#include <stdlib.h>

/* The blanks, and the bytes that are their marks. libxml2 does not look whether characters of an entity are allowed in a value. */
static const char blanks[] = "\t\n\r";
static const char marks[] = "\x01\x02\x03";

static const char of_entity[] = "<!ENTITY";

const char instruction_mark[] = "\xF4\x8F\xBF\xBF"; /* U+10FFFF, which is no character of any language */

enum { MOST_CODE = 0x110000 };

/* What a part of a text is in. */
enum where { IN_CONTENT, IN_TAG, IN_VALUE /* of an attribute, whose quotes are not in the text */ };

/* A text that is read. */
struct level {
    struct span rest;
    enum where where;
    char quote; /* the quote of the value in a tag; 0: none */
};

/* Where texts are read, and where they are written. */
struct rewriting {
    struct level now;
    struct level *outer; /* the texts in which it is, the innermost last */
    size_t depth;
    size_t capacity;
    const struct entity_source *source;
    struct bytes *to;
};

/* A reference at the start of a text. */
struct reference {
    size_t length; /* with `&` and `;`; 0: there is none */
    bool is_code;  /* it is one to a character */
    long code;
};

static int digit_of(char byte, int base) {
    int value = byte >= '0' && byte <= '9' ? byte - '0' : byte >= 'a' && byte <= 'f' ? byte - 'a' + 10 : byte >= 'A' && byte <= 'F' ? byte - 'A' + 10 : base;
    return value < base ? value : -1;
}

/* The code that the digits are; -1: they are no number. */
static long code_of(struct span digits, int base) {
    long code = digits.length == 0 ? -1 : 0;
    for (size_t at = 0; at < digits.length && code >= 0; at++) {
        int digit = digit_of(digits.data[at], base);
        code = digit < 0 ? -1 : code < MOST_CODE ? base * code + digit : code;
    }
    return code;
}

/* Whether the byte may be in a reference. */
static bool is_of_reference(char byte) {
    return byte != '\0' && strchr("&;<>\"'% \t\n\r", byte) == NULL;
}

static struct reference reference_at(struct span text) {
    struct reference found = {0, false, -1};
    size_t end = 1;
    if (text.length == 0 || text.data[0] != '&') {
        return found;
    }
    while (end < text.length && is_of_reference(text.data[end])) {
        end++;
    }
    if (end == 1 || end == text.length || text.data[end] != ';') {
        return found;
    }
    found.is_code = text.data[1] == '#';
    if (found.is_code) {
        bool is_hexadecimal = text.data[2] == 'x';
        size_t begin = is_hexadecimal ? 3 : 2;
        found.code = code_of((struct span){text.data + begin, end - begin}, is_hexadecimal ? 16 : 10);
    }
    found.length = found.is_code && found.code < 0 ? 0 : end + 1;
    return found;
}

/* The mark of the blank that a reference gives; 0: it gives none. */
static char mark_of(struct reference reference) {
    const char *blank = reference.is_code && reference.code > 0 && reference.code < ' ' ? strchr(blanks, (int)reference.code) : NULL;
    return blank == NULL ? '\0' : marks[blank - blanks];
}

bool has_blank_reference(struct span text) {
    bool is_found = false;
    for (size_t at = 0; at < text.length && !is_found; at++) {
        is_found = text.data[at] == '&' && mark_of(reference_at(span_from(text, at))) != '\0';
    }
    return is_found;
}

/* The markup without references that begins with this and ends with that, and what its carriage returns become in content. */
struct section {
    const char *begin, *end, *carriage_return;
};

/* The section at the start of a text, or NULL. */
static const struct section *section_at(struct span text) {
    static const struct section sections[] = {{"<!--", "-->", " "}, {"<?", "?>", "\r"}, {"<![CDATA[", "]]>", "]]>&#13;<![CDATA["}};
    const struct section *found = NULL;
    for (size_t at = 0; at < sizeof sections / sizeof *sections && found == NULL; at++) {
        found = span_begins(text, sections[at].begin) ? &sections[at] : NULL;
    }
    return found;
}

/* The length of the section at the start of a text. */
static size_t section_length(struct span text, const struct section *section) {
    size_t at = strlen(section->begin);
    while (at < text.length && !span_begins(span_from(text, at), section->end)) {
        at++;
    }
    return at < text.length ? at + strlen(section->end) : text.length;
}

size_t entity_text_section(struct span text) {
    const struct section *section = section_at(text);
    return section == NULL ? 0 : section_length(text, section);
}

/* How many bytes at the start of the text begin neither references nor markup. */
static size_t plain_length(struct span text) {
    size_t length = 0;
    while (length < text.length && text.data[length] != '&' && text.data[length] != '<') {
        length++;
    }
    return length;
}

bool entity_text_next(struct span *rest, struct span *name) {
    bool is_found = false;
    size_t plain = plain_length(*rest);
    *rest = (struct span){rest->data + plain, rest->length - plain};
    while (rest->length > 0 && !is_found) {
        struct reference reference = reference_at(*rest);
        const struct section *section = rest->data[0] == '<' ? section_at(*rest) : NULL;
        size_t length = reference.length > 0 ? reference.length : section != NULL ? section_length(*rest, section) : 1;
        is_found = reference.length > 0 && !reference.is_code;
        *name = (struct span){rest->data + 1, is_found ? length - 2 : 0};
        length += is_found ? 0 : plain_length(span_from(*rest, length));
        *rest = (struct span){rest->data + length, rest->length - length};
    }
    return is_found;
}

void entity_text_marked(struct span text, struct bytes *to) {
    for (size_t at = 0; at < text.length;) {
        struct reference reference = reference_at(span_from(text, at));
        char mark = mark_of(reference);
        bytes_add_byte(to, mark == '\0' ? text.data[at] : mark);
        at += mark == '\0' ? 1 : reference.length;
    }
}

bool has_blank_marks(struct span value) {
    bool is_found = false;
    for (size_t at = 0; at < value.length && !is_found; at++) {
        is_found = value.data[at] >= marks[0] && value.data[at] <= marks[2];
    }
    return is_found;
}

void add_unmarked(struct span value, struct bytes *to) {
    for (size_t at = 0; at < value.length; at++) {
        bool is_mark = has_blank_marks((struct span){value.data + at, 1});
        bytes_add_byte(to, is_mark ? blanks[value.data[at] - marks[0]] : value.data[at]);
    }
}

/* Whether XML 1.0 has a character of the code. */
static bool is_plain_code(long code) {
    bool is_blank = code == '\t' || code == '\n' || code == '\r';
    return is_blank || (code >= ' ' && code < 0xD800) || (code > 0xDFFF && code < 0xFFFE) || (code > 0xFFFF && code < MOST_CODE);
}

/* The code of the reference to one of the five entities that each document has; -1: it is none. */
static long predefined_code(struct span name) {
    static const struct {
        const char *name;
        char byte;
    } entities[] = {{"amp", '&'}, {"lt", '<'}, {"gt", '>'}, {"quot", '"'}, {"apos", '\''}};
    long code = -1;
    for (size_t at = 0; at < sizeof entities / sizeof *entities && code < 0; at++) {
        code = span_is(name, entities[at].name) ? entities[at].byte : -1;
    }
    return code;
}

size_t entity_text_character(struct span text, struct bytes *to) {
    struct reference reference = reference_at(text);
    if (reference.length == 0) {
        return 0;
    }
    long code = reference.is_code ? reference.code : predefined_code((struct span){text.data + 1, reference.length - 2});
    if (!is_plain_code(code)) {
        return 0;
    }
    bytes_add_character(to, (unsigned)code);
    return reference.length;
}

/* Whether the text is a Name (XML 1.0, production 5), which may have colons. */
static bool is_name(struct span text) {
    bool is_good = text.length > 0;
    size_t size = 1;
    for (size_t at = 0; at < text.length && is_good; at += size) {
        uint32_t code = code_point(text, at, &size);
        is_good = code == ':' || is_name_character(code, at == 0);
    }
    return is_good;
}

size_t entity_text_kept(struct span text, struct bytes *to) {
    struct reference reference = reference_at(text);
    if (reference.length == 0 || reference.is_code) {
        return entity_text_character(text, to);
    }
    if (!is_name((struct span){text.data + 1, reference.length - 2})) {
        return 0;
    }
    bytes_add(to, text.data, reference.length);
    return reference.length;
}

/* How many bytes at the start of the text are values as they are. */
static size_t value_length(struct span text) {
    size_t length = 0;
    while (length < text.length && text.data[length] != '&' && text.data[length] != '<' && !is_blank_byte(text.data[length])) {
        length++;
    }
    return length;
}

bool entity_text_decoded(struct span text, struct bytes *to) {
    bool is_good = true;
    while (text.length > 0 && is_good) {
        size_t length = value_length(text);
        bytes_add(to, text.data, length);
        if (length == 0 && is_blank_byte(text.data[0])) {
            bytes_add_byte(to, ' ');
            length = 1;
        } else if (length == 0) {
            length = entity_text_character(text, to);
            is_good = length > 0;
        }
        text = span_from(text, length);
    }
    return is_good && !to->failed;
}

static void skip(struct rewriting *rewriting, size_t length) {
    struct span *rest = &rewriting->now.rest;
    *rest = (struct span){rest->data + length, rest->length - length};
}

static void copy(struct rewriting *rewriting, size_t length) {
    bytes_add(rewriting->to, rewriting->now.rest.data, length);
    skip(rewriting, length);
}

/* Writes this in the place of the first byte. */
static void replace(struct rewriting *rewriting, const char *text) {
    bytes_add_text(rewriting->to, text);
    skip(rewriting, 1);
}

/* Writes a comment where two texts in content meet, if brackets before it and behind it would be taken for the end of a section. */
static void part(struct rewriting *rewriting) {
    const struct bytes *to = rewriting->to;
    if (rewriting->now.where == IN_CONTENT && to->length > 0 && to->data[to->length - 1] == ']') {
        bytes_add_text(rewriting->to, "<!---->");
    }
}

/* Leaves the text that is read for one in it. */
static void enter(struct rewriting *rewriting, struct level inner) {
    if (rewriting->depth == rewriting->capacity) {
        size_t capacity = rewriting->capacity == 0 ? 8 : 2 * rewriting->capacity;
        struct level *outer = realloc(rewriting->outer, capacity * sizeof *outer);
        if (outer == NULL) {
            rewriting->to->failed = true;
            return;
        }
        rewriting->outer = outer;
        rewriting->capacity = capacity;
    }
    rewriting->outer[rewriting->depth++] = rewriting->now;
    part(rewriting);
    rewriting->now = inner;
}

/* Goes on with the text in which the one is that was read. */
static void leave(struct rewriting *rewriting) {
    part(rewriting);
    rewriting->now = rewriting->outer[--rewriting->depth];
    rewriting->source->close(rewriting->source->context);
}

/* Writes a reference. What is none is no reference with the text behind it either. */
static void rewrite_reference(struct rewriting *rewriting) {
    struct span rest = rewriting->now.rest;
    struct reference reference = reference_at(rest);
    bool is_in_value = rewriting->now.where != IN_CONTENT;
    struct span text;
    if (reference.length == 0) {
        replace(rewriting, "&;");
    } else if (reference.is_code ||
               !rewriting->source->open(rewriting->source->context, (struct span){rest.data + 1, reference.length - 2}, is_in_value, &text)) {
        copy(rewriting, reference.length);
    } else {
        skip(rewriting, reference.length);
        enter(rewriting, (struct level){text, is_in_value ? IN_VALUE : IN_CONTENT, '\0'});
    }
}

/* Writes a byte of a value, or a reference. */
static void rewrite_in_value(struct rewriting *rewriting) {
    char byte = rewriting->now.rest.data[0];
    if (byte == '&') {
        rewrite_reference(rewriting);
    } else if (byte == '\r') {
        replace(rewriting, " ");
    } else if (rewriting->now.where == IN_VALUE && (byte == '"' || byte == '\'')) {
        replace(rewriting, byte == '"' ? "&#34;" : "&#39;");
    } else {
        copy(rewriting, 1);
    }
}

/* Writes what is next in a tag. */
static void rewrite_in_tag(struct rewriting *rewriting) {
    char byte = rewriting->now.rest.data[0];
    char quote = rewriting->now.quote;
    if (quote != '\0' && byte != quote) {
        rewrite_in_value(rewriting);
    } else {
        bool is_quote = byte == '"' || byte == '\'';
        rewriting->now.quote = quote == '\0' && is_quote ? byte : '\0';
        rewriting->now.where = quote == '\0' && byte == '>' ? IN_CONTENT : IN_TAG;
        bytes_add_byte(rewriting->to, byte == '\r' ? ' ' : byte);
        skip(rewriting, 1);
    }
}

/* Writes so many bytes, with this in the place of each carriage return. */
static void rewrite_section(struct rewriting *rewriting, size_t length, const char *carriage_return) {
    for (size_t at = 0; at < length; at++) {
        if (rewriting->now.rest.data[0] == '\r') {
            replace(rewriting, carriage_return);
        } else {
            copy(rewriting, 1);
        }
    }
}

/* Writes what is next in content. */
static void rewrite_in_content(struct rewriting *rewriting) {
    char byte = rewriting->now.rest.data[0];
    const struct section *section = byte == '<' ? section_at(rewriting->now.rest) : NULL;
    if (section != NULL) {
        rewrite_section(rewriting, section_length(rewriting->now.rest, section), section->carriage_return);
    } else if (byte == '&') {
        rewrite_reference(rewriting);
    } else if (byte == '\r') {
        replace(rewriting, "&#13;");
    } else {
        rewriting->now.where = byte == '<' ? IN_TAG : IN_CONTENT;
        copy(rewriting, 1);
    }
}

/* Writes a text with those in it, which may be in one another to any depth. */
static void rewrite(struct rewriting *rewriting) {
    while ((rewriting->now.rest.length > 0 || rewriting->depth > 0) && !rewriting->to->failed) {
        if (rewriting->now.rest.length == 0) {
            leave(rewriting);
        } else if (rewriting->now.where == IN_CONTENT) {
            rewrite_in_content(rewriting);
        } else if (rewriting->now.where == IN_TAG) {
            rewrite_in_tag(rewriting);
        } else {
            rewrite_in_value(rewriting);
        }
    }
    free(rewriting->outer);
}

void entity_text_value(struct span text, const struct entity_source *source, struct bytes *to) {
    rewrite(&(struct rewriting){.now = {text, IN_VALUE, '\0'}, .source = source, .to = to});
}

void entity_text_content(struct span text, const struct entity_source *source, struct bytes *to) {
    rewrite(&(struct rewriting){.now = {text, IN_CONTENT, '\0'}, .source = source, .to = to});
}

/* Writes the instruction at the start. */
static void rewrite_instruction(struct rewriting *rewriting, size_t length) {
    struct span rest = rewriting->now.rest;
    size_t at = strlen("<?");
    while (at < length && !is_blank_byte(rest.data[at]) && rest.data[at] != '?') {
        at++;
    }
    while (at < length && is_blank_byte(rest.data[at])) {
        at++;
    }
    copy(rewriting, at);
    if (at < length && rest.data[at] == '%') {
        bytes_add_text(rewriting->to, instruction_mark);
    }
    copy(rewriting, length - at);
}

/* The length of the literal at the start; without its end it is the whole text. */
static size_t literal_length(struct span text) {
    const char *end = memchr(text.data + 1, text.data[0], text.length - 1);
    return end == NULL ? text.length : (size_t)(end + 1 - text.data);
}

/* The length of what is at the start of a text of declarations: a section, a literal, or a byte. */
static size_t declared_length(struct span text) {
    const struct section *section = text.data[0] == '<' ? section_at(text) : NULL;
    bool is_literal = text.data[0] == '"' || text.data[0] == '\'';
    return section != NULL ? section_length(text, section) : is_literal ? literal_length(text) : 1;
}

bool entity_text_is_read_otherwise(const char *text) {
    bool may_have_percent = strstr(text, "<?") != NULL && strchr(text, '%') != NULL;
    return may_have_percent || (strchr(text, '\r') != NULL && strstr(text, of_entity) != NULL);
}

/* How many blanks begin the rest of the text behind the place. */
static size_t blanks_behind(struct span text, size_t at) {
    size_t begin = at;
    while (at < text.length && is_blank_byte(text.data[at])) {
        at++;
    }
    return at - begin;
}

/* Where the value is in the declaration of an entity that begins the text (productions 71 to 74); 0: there is none, or it has identifiers. */
static size_t value_in_declaration(struct span text) {
    size_t at = span_begins(text, of_entity) ? sizeof of_entity - 1 : text.length;
    at += blanks_behind(text, at);
    size_t behind_percent = at < text.length && text.data[at] == '%' ? blanks_behind(text, at + 1) : 0;
    at += behind_percent > 0 ? 1 + behind_percent : 0;
    while (at < text.length && !is_blank_byte(text.data[at]) && text.data[at] != '>') {
        at++; /* the name */
    }
    at += blanks_behind(text, at);
    return at < text.length && (text.data[at] == '"' || text.data[at] == '\'') ? at : 0;
}

/* Writes what is next in a text of declarations. */
static void rewrite_declared(struct rewriting *rewriting) {
    struct span rest = rewriting->now.rest;
    size_t value = value_in_declaration(rest);
    size_t length = declared_length(rest);
    if (value > 0) {
        copy(rewriting, value);
        rewrite_section(rewriting, literal_length(rewriting->now.rest), "&#13;");
    } else if (span_begins(rest, "<?")) {
        rewrite_instruction(rewriting, length);
    } else {
        copy(rewriting, length);
    }
}

void entity_text_declarations(struct span text, struct bytes *to) {
    struct rewriting rewriting = {.now = {text, IN_CONTENT, '\0'}, .to = to};
    while (rewriting.now.rest.length > 0) {
        rewrite_declared(&rewriting);
    }
}

/* Whether the first bytes of a text, a section or a literal, have their end. */
static bool has_end(struct span text, size_t length) {
    const struct section *section = section_at(text);
    size_t end = section == NULL ? 1 : strlen(section->end);
    const char *last = text.data + length - end;
    return section == NULL ? length > 1 && *last == text.data[0] : length >= strlen(section->begin) + end && memcmp(last, section->end, end) == 0;
}

bool entity_text_is_whole(struct span text) {
    bool is_outside = true;
    bool is_ended = true;
    while (text.length > 0 && is_ended) {
        char byte = text.data[0];
        bool is_literal = byte == '"' || byte == '\'';
        size_t length = is_outside && is_literal ? 1 : declared_length(text);
        is_ended = length == 1 ? is_outside || !is_literal : has_end(text, length);
        is_outside = length > 1 ? is_outside : is_outside ? byte != '<' : byte == '>';
        text = (struct span){text.data + length, text.length - length};
    }
    return is_outside && is_ended;
}
