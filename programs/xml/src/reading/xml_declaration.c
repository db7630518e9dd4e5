#include "xml_declaration.h"

#include <string.h>

static bool is_blank(char byte) {
    return byte == ' ' || byte == '\t' || byte == '\n' || byte == '\r';
}

static bool is_digit(char byte) {
    return byte >= '0' && byte <= '9';
}

static bool is_letter(char byte) {
    return (byte >= 'a' && byte <= 'z') || (byte >= 'A' && byte <= 'Z');
}

bool is_named(struct span span, const char *name) {
    size_t at = 0;
    for (; at < span.length && name[at] != '\0'; at++) {
        char byte = span.data[at];
        char small = byte >= 'A' && byte <= 'Z' ? (char)(byte - 'A' + 'a') : byte;
        if (small != name[at]) {
            return false;
        }
    }
    return at == span.length && name[at] == '\0';
}

static bool is_text(struct span span, const char *text) {
    return span.length == strlen(text) && memcmp(span.data, text, span.length) == 0;
}

/* Takes a text off the front. */
static bool take(struct span *rest, const char *text) {
    size_t length = strlen(text);
    if (rest->length < length || memcmp(rest->data, text, length) != 0) {
        return false;
    }
    *rest = (struct span){rest->data + length, rest->length - length};
    return true;
}

/* Takes blanks off the front. Returns whether there were any. */
static bool take_blanks(struct span *rest) {
    size_t length = 0;
    while (length < rest->length && is_blank(rest->data[length])) {
        length++;
    }
    *rest = (struct span){rest->data + length, rest->length - length};
    return length > 0;
}

/* Takes `= "value"` off the front. False: it is not there. */
static bool take_value(struct span *rest, struct span *value) {
    take_blanks(rest);
    if (!take(rest, "=")) {
        return false;
    }
    take_blanks(rest);
    if (rest->length == 0 || (rest->data[0] != '"' && rest->data[0] != '\'')) {
        return false;
    }
    const char *begin = rest->data + 1;
    const char *end = memchr(begin, rest->data[0], rest->length - 1);
    if (end == NULL) {
        return false;
    }
    *value = (struct span){begin, (size_t)(end - begin)};
    *rest = (struct span){end + 1, rest->length - value->length - 2};
    return true;
}

/* Whether it is `1.` and digits (production 26). */
static bool is_version(struct span version) {
    bool is_good = version.length > 2 && version.data[0] == '1' && version.data[1] == '.';
    for (size_t at = 2; at < version.length; at++) {
        is_good = is_good && is_digit(version.data[at]);
    }
    return is_good;
}

/* Whether it is a name of an encoding (production 81). */
static bool is_encoding(struct span name) {
    bool is_good = name.length > 0 && is_letter(name.data[0]);
    for (size_t at = 1; at < name.length; at++) {
        char byte = name.data[at];
        is_good = is_good && (is_letter(byte) || is_digit(byte) || byte == '.' || byte == '_' || byte == '-');
    }
    return is_good;
}

/* Reads what is between `<?xml` and `?>`. Returns what is wrong with it, or NULL. */
static const char *read_inside(struct span rest, bool is_external, struct xml_declaration *declaration) {
    struct span standalone = {NULL, 0};
    bool is_parted = take_blanks(&rest);
    bool has_version = is_parted && take(&rest, "version");
    if (has_version ? !take_value(&rest, &declaration->version) : !is_external) {
        return "the XML declaration has no version";
    }
    if (has_version && !is_version(declaration->version)) {
        return "the version of the XML declaration is not 1.0";
    }
    is_parted = has_version ? take_blanks(&rest) : is_parted;
    if (is_parted && take(&rest, "encoding")) {
        if (!take_value(&rest, &declaration->encoding) || !is_encoding(declaration->encoding)) {
            return "the XML declaration names no encoding";
        }
        is_parted = take_blanks(&rest);
    }
    if (is_external && declaration->encoding.data == NULL) {
        return "the text declaration names no encoding";
    }
    if (is_parted && !is_external && take(&rest, "standalone")) {
        bool is_good = take_value(&rest, &standalone) && (is_text(standalone, "yes") || is_text(standalone, "no"));
        if (!is_good) {
            return "standalone is yes or no";
        }
        take_blanks(&rest);
    }
    return rest.length > 0 ? "the XML declaration is not of its form" : NULL;
}

struct xml_declaration xml_declaration_of(struct span text, bool is_external) {
    struct xml_declaration declaration = {false, false, 0, {NULL, 0}, {NULL, 0}, NULL};
    struct span rest = text;
    if (!take(&rest, "<?xml") || rest.length == 0 || !is_blank(rest.data[0])) {
        return declaration;
    }
    declaration.is_there = true;
    for (size_t at = 0; at + 1 < rest.length && !declaration.is_whole; at++) {
        if (rest.data[at] == '?' && rest.data[at + 1] == '>') {
            declaration.is_whole = true;
            declaration.length = text.length - rest.length + at + 2;
            rest.length = at;
        }
    }
    if (declaration.is_whole) {
        declaration.wrong = read_inside(rest, is_external, &declaration);
    }
    return declaration;
}
