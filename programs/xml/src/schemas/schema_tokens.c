#include "schema_tokens.h"

#include "conversion.h"
#include "paths.h"

#include <stdlib.h>
#include <string.h>

/* What an escaped line feed and an escaped carriage return are while tokens are read: they end no line and no literal. XML has neither of these two
 * characters. */
enum { HIDDEN_FEED = 1, HIDDEN_RETURN = 2 };

enum { LINES_BYTES = 65536 }; /* of PYX, to find the tag of a root in */

size_t mark_length(const char *bytes, size_t length) {
    return length >= 3 && memcmp(bytes, "\xEF\xBB\xBF", 3) == 0 ? 3 : 0;
}

/* Whether the first bytes are a byte order mark of UTF-16, or two ASCII characters in UTF-16. */
static bool is_utf_16(const char *bytes, size_t length) {
    bool is_marked = length >= 2 && (memcmp(bytes, "\xFF\xFE", 2) == 0 || memcmp(bytes, "\xFE\xFF", 2) == 0);
    bool is_little = length >= 4 && bytes[0] != '\0' && bytes[1] == '\0' && bytes[2] != '\0' && bytes[3] == '\0';
    bool is_big = length >= 4 && bytes[0] == '\0' && bytes[1] != '\0' && bytes[2] == '\0' && bytes[3] != '\0';
    return is_marked || is_little || is_big;
}

/* XML that is read up to its root element. */
struct reading {
    struct span left;
    struct bytes lines; /* of its PYX */
};

static bool give(void *context, char *bytes, size_t size, size_t *length, struct fault *fault) {
    struct reading *reading = context;
    (void)fault;
    *length = reading->left.length < size ? reading->left.length : size;
    memcpy(bytes, reading->left.data, *length);
    reading->left = (struct span){reading->left.data + *length, reading->left.length - *length};
    return true;
}

static bool take(void *context, const struct piece *piece) {
    struct reading *reading = context;
    bytes_add(&reading->lines, piece->bytes, piece->length);
    return reading->lines.length < LINES_BYTES && !reading->lines.failed;
}

static void drop_note(void *context, struct place place, const char *what) {
    (void)context;
    (void)place;
    (void)what;
}

/* The namespace of the root, up to the line's end, if its tag declares it; else an empty text. */
static const char *root_namespace(const char *lines) {
    const char *prefix = NULL;
    size_t length = 0;
    for (const char *line = lines; *line == '?' || *line == '(' || *line == 'A'; line += strcspn(line, "\n"), line += *line == '\n') {
        if (*line == '(') {
            if (prefix != NULL) {
                break; /* an element in the root */
            }
            prefix = line + 1;
            length = strcspn(prefix, ":\n");
            length = prefix[length] == ':' ? length : 0;
        } else if (prefix != NULL && *line == 'A' && strncmp(line + 1, "xmlns", 5) == 0) {
            const char *declared = line + 6 + (length > 0 && line[6] == ':');
            if (strncmp(declared, prefix, length) == 0 && declared[length] == ' ') {
                return declared + length + 1;
            }
        }
    }
    return "";
}

static bool is_line(const char *line, const char *text) {
    return strncmp(line, text, strlen(text)) == 0 && line[strlen(text)] == '\n';
}

/* Finds out what kind of XML it is. If it is not well formed before the root's tag ends, it is any kind. */
static bool xml_of(const char *bytes, size_t length, enum writing *writing) {
    struct reading reading = {{bytes, length}, NO_BYTES};
    struct fault fault = NO_FAULT;
    convert(&(struct byte_source){give, &reading, NULL}, &(struct pyx_sink){take, drop_note, &reading}, &fault);
    const char *uri = root_namespace(bytes_text(&reading.lines));
    *writing = is_line(uri, "http://relaxng.org/ns/structure/1.0") ? WRITING_RELAX_NG
               : is_line(uri, "http://www.w3.org/2001/XMLSchema")  ? WRITING_XML_SCHEMA
                                                                   : WRITING_XML;
    bool is_good = !reading.lines.failed && fault.kind != FAULT_MEMORY;
    bytes_free(&reading.lines);
    fault_free(&fault);
    return is_good;
}

/* The XML in the bytes, without blanks before it; nothing if there is none. */
static struct span xml_in(const char *bytes, size_t length, bool is_wide) {
    size_t at = 0;
    if (is_wide) {
        at = (unsigned char)bytes[0] >= 0xFE ? 2 : 0; /* behind the mark */
        bool is_xml = at + 1 < length && (memcmp(bytes + at, "<\0", 2) == 0 || memcmp(bytes + at, "\0<", 2) == 0);
        return (struct span){bytes, is_xml ? length : 0};
    }
    while (at < length && (bytes[at] == ' ' || bytes[at] == '\t' || bytes[at] == '\n' || bytes[at] == '\r')) {
        at++;
    }
    return (struct span){bytes + at, at < length && bytes[at] == '<' ? length - at : 0};
}

bool writing_of(const char *bytes, size_t length, enum writing *writing) {
    bool is_wide = length > 0 && is_utf_16(bytes, length);
    *writing = is_wide ? WRITING_UTF_16 : WRITING_COMPACT;
    struct span xml = length > 0 ? xml_in(bytes, length, is_wide) : (struct span){NULL, 0};
    return xml.length == 0 || xml_of(xml.data, xml.length, writing);
}

static int digit_of(char byte) {
    return byte >= '0' && byte <= '9' ? byte - '0' : byte >= 'a' && byte <= 'f' ? byte - 'a' + 10 : byte >= 'A' && byte <= 'F' ? byte - 'A' + 10 : -1;
}

/* The length of the escape that begins here, and its code point; 0 if none does. */
static size_t escape_at(const char *bytes, size_t left, unsigned *code) {
    size_t at = 1;
    while (at < left && bytes[at] == 'x') {
        at++;
    }
    if (at == 1 || at >= left || bytes[at] != '{') {
        return 0;
    }
    size_t digits = ++at;
    *code = 0;
    while (at < left && digit_of(bytes[at]) >= 0) {
        *code = *code > 0x110000 ? *code : *code * 16 + (unsigned)digit_of(bytes[at]);
        at++;
    }
    return at > digits && at < left && bytes[at] == '}' ? at + 1 : 0;
}

static bool is_character(unsigned code) {
    return code >= 0x20 ? code <= 0xD7FF || (code >= 0xE000 && code <= 0xFFFD) || (code >= 0x10000 && code <= 0x10FFFF)
                        : code == '\t' || code == '\n' || code == '\r';
}

/* Whether an escape begins here, and is none of a character. */
static bool is_bad_escape(const char *bytes, size_t left) {
    unsigned code;
    size_t at = 1;
    while (at < left && bytes[at] == 'x') {
        at++;
    }
    bool is_escape = at > 1 && at < left && bytes[at] == '{';
    return is_escape && (escape_at(bytes, left, &code) == 0 || !is_character(code));
}

bool is_text(const char *bytes, size_t length) {
    bool is_good = is_utf_8(bytes, length);
    for (size_t at = 0; at < length && is_good; at++) {
        unsigned char byte = (unsigned char)bytes[at];
        if (byte == '\\') {
            is_good = !is_bad_escape(bytes + at, length - at);
        } else if (byte == 0xEF) { /* U+FFFE and U+FFFF are no characters */
            is_good = (unsigned char)bytes[at + 1] != 0xBF || (unsigned char)bytes[at + 2] < 0xBE;
        } else {
            is_good = byte >= 0x20 || is_character(byte);
        }
    }
    return is_good;
}

/* A character that an escape stands for, in UTF-8 but for line ends. */
static size_t shown_of(unsigned code, char *bytes) {
    if (code == '\n' || code == '\r') {
        bytes[0] = code == '\n' ? (char)HIDDEN_FEED : (char)HIDDEN_RETURN;
        return 1;
    }
    return utf_8_of(code, bytes);
}

/* Replaces the escapes, and notes where each byte comes from. */
static bool replace_escapes(struct tokens *tokens, const char *bytes, size_t length) {
    tokens->origins = malloc((length + 1) * sizeof *tokens->origins);
    if (tokens->origins == NULL) {
        return false;
    }
    for (size_t at = 0; at < length;) {
        unsigned code;
        char shown[4] = {bytes[at]};
        size_t size = bytes[at] == '\\' ? escape_at(bytes + at, length - at, &code) : 0;
        size_t shown_size = size > 0 && code > 0 && code <= 0x10FFFF ? shown_of(code, shown) : 1;
        for (size_t byte = 0; byte < shown_size; byte++) {
            tokens->origins[tokens->text.length + byte] = at;
        }
        bytes_add(&tokens->text, shown, shown_size);
        at += size > 0 ? size : 1;
    }
    tokens->origins[tokens->text.length] = length;
    return !tokens->text.failed;
}

bool tokens_open(struct tokens *tokens, const char *bytes, size_t length) {
    *tokens = (struct tokens){NO_BYTES, NULL, 0};
    if (length == 0) {
        return true;
    }
    if (memchr(bytes, '\\', length) != NULL) {
        return replace_escapes(tokens, bytes, length);
    }
    bytes_add(&tokens->text, bytes, length);
    return !tokens->text.failed;
}

void tokens_close(struct tokens *tokens) {
    bytes_free(&tokens->text);
    free(tokens->origins);
    tokens->origins = NULL;
}

static bool begins_name(char byte) {
    return (byte >= 'A' && byte <= 'Z') || (byte >= 'a' && byte <= 'z') || byte == '_' || (unsigned char)byte >= 0x80;
}

static bool continues_name(char byte) {
    return begins_name(byte) || (byte >= '0' && byte <= '9') || byte == '-' || byte == '.';
}

/* Skips blanks and comments. */
static size_t after_blanks(const char *text, size_t at, size_t length) {
    while (at < length) {
        char byte = text[at];
        if (byte == '#') {
            while (at < length && text[at] != '\n' && text[at] != '\r') {
                at++;
            }
        } else if (byte == ' ' || byte == '\t' || byte == '\n' || byte == '\r') {
            at++;
        } else {
            break;
        }
    }
    return at;
}

static size_t after_name(const char *text, size_t at, size_t length) {
    while (at < length && continues_name(text[at])) {
        at++;
    }
    return at;
}

/* A literal, with one quote or with three. */
static struct token literal_at(const char *text, size_t at, size_t length, size_t *end) {
    char quote = text[at];
    bool is_long = at + 2 < length && text[at + 1] == quote && text[at + 2] == quote;
    size_t begin = at + (is_long ? 3 : 1);
    for (size_t here = begin; here < length; here++) {
        bool closes = text[here] == quote && (!is_long || (here + 2 < length && text[here + 1] == quote && text[here + 2] == quote));
        if (closes) {
            *end = here + (is_long ? 3 : 1);
            return (struct token){TOKEN_LITERAL, {text + begin, here - begin}, at, 0};
        }
        if (!is_long && (text[here] == '\n' || text[here] == '\r')) {
            break;
        }
    }
    /* three quotes without an end are an empty literal and what follows it */
    *end = is_long ? at + 2 : length;
    return (struct token){is_long ? TOKEN_LITERAL : TOKEN_NONE, {text + at + 1, 0}, at, 0};
}

static struct token word_at(const char *text, size_t at, size_t length, size_t *end) {
    size_t begin = at + (text[at] == '\\');
    enum token_kind kind = begin > at ? TOKEN_NAME : TOKEN_WORD;
    size_t stop = after_name(text, begin, length);
    if (kind == TOKEN_WORD && stop + 1 < length && text[stop] == ':' && (begins_name(text[stop + 1]) || text[stop + 1] == '*')) {
        stop = text[stop + 1] == '*' ? stop + 2 : after_name(text, stop + 1, length);
        kind = TOKEN_NAME;
    }
    *end = stop;
    return (struct token){kind, {text + begin, stop - begin}, at, 0};
}

struct token tokens_next(struct tokens *tokens) {
    const char *text = tokens->text.data;
    size_t length = tokens->text.length;
    size_t at = after_blanks(text, tokens->next, length);
    struct token token = {TOKEN_NONE, {NULL, 0}, at, 0};
    size_t end = at;
    if (at < length && (text[at] == '"' || text[at] == '\'')) {
        token = literal_at(text, at, length, &end);
    } else if (at < length && (begins_name(text[at]) || (text[at] == '\\' && at + 1 < length && begins_name(text[at + 1])))) {
        token = word_at(text, at, length, &end);
    } else if (at < length && memchr(">|&[]=,?*+{}()~-", text[at], 16) != NULL) {
        token = (struct token){TOKEN_SIGN, {text + at, 1}, at, 0};
        end = at + 1;
    }
    tokens->next = token.kind == TOKEN_NONE ? length : end;
    token.at = tokens->origins == NULL ? token.at : tokens->origins[token.at];
    token.end = tokens->origins == NULL ? end : tokens->origins[end];
    return token;
}

void add_literal(struct bytes *text, const struct token *token) {
    for (size_t at = 0; at < token->text.length; at++) {
        char byte = token->text.data[at];
        bytes_add_byte(text, byte == HIDDEN_FEED ? '\n' : byte == HIDDEN_RETURN ? '\r' : byte);
    }
}

void write_literal(struct bytes *to, struct span text) {
    bytes_add_byte(to, '"');
    for (size_t at = 0; at < text.length; at++) {
        unsigned char byte = (unsigned char)text.data[at];
        if (byte == '"') {
            bytes_add_text(to, "\" ~ '\"' ~ \"");
        } else if (byte < ' ' || byte == '\\') {
            bytes_format(to, "\\x{%X}", byte);
        } else {
            bytes_add_byte(to, text.data[at]);
        }
    }
    bytes_add_byte(to, '"');
}

bool is_word(const struct token *token, const char *word) {
    return token->kind == TOKEN_WORD && token->text.length == strlen(word) && memcmp(token->text.data, word, token->text.length) == 0;
}

bool is_sign(const struct token *token, char sign) {
    return token->kind == TOKEN_SIGN && token->text.data[0] == sign;
}

static bool is_keyword(const struct token *token) {
    static const char *const words[] = {"attribute", "default", "datatypes", "div", "element", "empty", "external", "grammar", "include", "inherit",
                                        "list", "mixed", "namespace", "notAllowed", "parent", "start", "string", "text", "token"};
    for (size_t at = 0; at < sizeof words / sizeof *words; at++) {
        if (is_word(token, words[at])) {
            return true;
        }
    }
    return false;
}

bool has_colon(const struct token *token) {
    return token->text.length > 0 && memchr(token->text.data, ':', token->text.length) != NULL;
}

bool is_identifier(const struct token *token) {
    return token->kind == TOKEN_WORD ? !is_keyword(token) : token->kind == TOKEN_NAME && !has_colon(token);
}

bool is_names(const struct token *token) {
    return token->kind == TOKEN_NAME && token->text.length > 0 && token->text.data[token->text.length - 1] == '*';
}

bool is_name(const struct token *token) {
    return token->kind == TOKEN_WORD || (token->kind == TOKEN_NAME && !is_names(token));
}
