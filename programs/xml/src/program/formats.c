#include "formats.h"

#include "paths.h"

#include <inttypes.h>
#include <string.h>

void add_text(struct bytes *line, const struct result *result, bool has_color) {
    bool is_good = result->message[0] == '\0';
    bytes_add_text(line, has_color ? "\033[1m" : "");
    add_shown(line, result->file, strlen(result->file), SIZE_MAX);
    if (result->place.line > 0) {
        bytes_format(line, ":%" PRIu64 ":%" PRIu64, result->place.line, result->place.column);
    }
    bytes_add_text(line, has_color ? ":\033[0m " : ": ");
    bytes_add_text(line, !has_color ? "" : is_good ? "\033[32m" : result->is_note ? "\033[33m" : "\033[31m");
    bytes_add_text(line, is_good ? result->verdict : result->message);
    bytes_add_text(line, has_color ? "\033[0m\n" : "\n");
    bytes_add_text(line, result->source == NULL ? "" : result->source);
}

/* The length of the character that begins here; 0 if none does. */
static size_t character_length(const char *text, size_t left) {
    unsigned char byte = (unsigned char)text[0];
    size_t size = byte < 0x80 ? 1 : byte < 0xE0 ? 2 : byte < 0xF0 ? 3 : 4;
    return size <= left && is_utf_8(text, size) ? size : 0;
}

/* Adds a character to a string of JSON. What may end a line for some reader is escaped. */
static void add_character(struct bytes *line, const char *text, size_t size) {
    unsigned char byte = (unsigned char)text[0];
    bool is_control = size == 2 && byte == 0xC2 && (unsigned char)text[1] < 0xA0;
    bool is_separator = size == 3 && memcmp(text, "\xE2\x80", 2) == 0 && ((unsigned char)text[2] & 0xFE) == 0xA8;
    if (byte == '"' || byte == '\\') {
        bytes_format(line, "\\%c", byte);
    } else if (byte < ' ' || byte == 0x7F) {
        bytes_format(line, "\\u%04x", byte);
    } else if (is_control) {
        bytes_format(line, "\\u%04x", (unsigned char)text[1]);
    } else if (is_separator) {
        bytes_format(line, "\\u20%02x", (unsigned char)text[2] - 0x80);
    } else {
        bytes_add(line, text, size);
    }
}

/* Adds a string of JSON. A byte that is not UTF-8 is written as U+FFFD, or, in the name of a file, as `\udcXX`, which Python's file names turn back into
 * the byte. */
static void add_string(struct bytes *line, const char *text, size_t length, bool is_file) {
    bytes_add_byte(line, '"');
    for (size_t at = 0; at < length;) {
        size_t size = character_length(text + at, length - at);
        if (size > 0) {
            add_character(line, text + at, size);
        } else if (is_file) {
            bytes_format(line, "\\udc%02x", (unsigned char)text[at]);
        } else {
            bytes_add_text(line, "\\ufffd");
        }
        at += size > 0 ? size : 1;
    }
    bytes_add_byte(line, '"');
}

static void add_member(struct bytes *line, const char *name, const char *text) {
    bytes_format(line, ", \"%s\": ", name);
    add_string(line, text, strlen(text), false);
}

/* Adds an array of the notes, if there is one. */
static void add_notes(struct bytes *line, const struct result *result) {
    const char *before = ", \"notes\": [";
    for (size_t at = 0; at < result->note_count; at++) {
        struct note *note = &result->notes[at];
        bytes_format(line, "%s{\"line\": %" PRIu64 ", \"column\": %" PRIu64, before, note->place.line, note->place.column);
        add_member(line, "message", bytes_text(&note->what));
        bytes_add_byte(line, '}');
        before = ", ";
    }
    if (result->schema_note[0] != '\0') {
        bytes_format(line, "%s{\"message\": ", before);
        add_string(line, result->schema_note, strlen(result->schema_note), false);
        bytes_add_byte(line, '}');
    }
    bytes_add_text(line, result->note_count > 0 || result->schema_note[0] != '\0' ? "]" : "");
}

/* Adds what was expected, as an array. If memory ran out for it, it is left out. */
static void add_expected(struct bytes *line, const struct answer *answer) {
    const char *at = answer->expected.data;
    size_t count = answer->expected.failed ? 0 : answer->expected_count;
    for (size_t index = 0; index < count; index++) {
        bytes_add_text(line, index == 0 ? ", \"expected\": [" : ", ");
        add_string(line, at, strlen(at), false);
        at += strlen(at) + 1;
    }
    bytes_add_text(line, count > 0 ? "]" : "");
}

static void add_bytes_member(struct bytes *line, const char *name, const struct bytes *text) {
    if (text->length > 0) {
        bytes_format(line, ", \"%s\": ", name);
        add_string(line, text->data, text->length, false);
    }
}

/* Adds what is wrong, as members. The first one has `before` before it. */
static void add_reason(struct bytes *line, const struct answer *answer, const char *before) {
    if (answer != NULL && answer->reason != REASON_NOT_KNOWN) {
        bytes_format(line, "%s\"reason\": \"%s\"", before, reason_word(answer->reason));
        add_expected(line, answer);
        add_bytes_member(line, "attribute", &answer->attribute);
        add_bytes_member(line, "datatype", &answer->datatype);
        add_bytes_member(line, "token", &answer->token);
    }
}

/* Adds what is at the place. */
static void add_at(struct bytes *line, enum stands at, const struct bytes *name) {
    static const char *const stands[] = {"unknown", "element", "attribute", "text", "end"};
    if (at != STANDS_NOT_KNOWN && name != NULL) {
        add_member(line, "at", stands[at]);
        bytes_add_text(line, ", \"name\": ");
        add_string(line, name->data, name->length, false);
    }
}

/* Adds an array of the hints, if there is one. */
static void add_hints(struct bytes *line, const struct answer *answer) {
    size_t count = answer == NULL ? 0 : answer->hint_count;
    for (size_t at = 0; at < count; at++) {
        struct answer *hint = &answer->hints[at];
        bytes_add_text(line, at == 0 ? ", \"hints\": [" : ", ");
        bytes_format(line, "{\"line\": %" PRIu64 ", \"column\": %" PRIu64, hint->place.line, hint->place.column);
        add_at(line, hint->stands, &hint->name);
        add_member(line, "message", bytes_text(&hint->message));
        add_reason(line, hint, ", ");
        bytes_add_byte(line, '}');
    }
    bytes_add_text(line, count > 0 ? "]" : "");
}

void add_json(struct bytes *line, const struct result *result) {
    bytes_add_text(line, "{\"file\": ");
    add_string(line, result->file, strlen(result->file), true);
    add_member(line, "verdict", result->verdict);
    if (result->place.line > 0) {
        bytes_format(line, ", \"line\": %" PRIu64 ", \"column\": %" PRIu64, result->place.line, result->place.column);
    }
    add_at(line, result->stands, result->name);
    if (result->group != 0) {
        bytes_format(line, ", \"clause\": \"%c%d\"", result->group, result->clause);
    }
    if (result->message[0] != '\0') {
        add_member(line, "message", result->message);
    }
    add_reason(line, result->answer, ", ");
    add_hints(line, result->answer);
    add_notes(line, result);
    bytes_add_text(line, "}\n");
}

/* Adds text to a command of GitHub's. `%` and line ends are escaped, and in a property `:` and `,` too. GitHub has no escape for other characters of
 * control: they are shown as in the format text. */
static void add_command_text(struct bytes *line, const char *text, bool is_property) {
    const char *escaped = is_property ? "%\r\n:," : "%\r\n";
    while (*text != '\0') {
        size_t length = strcspn(text, escaped);
        add_shown(line, text, length, SIZE_MAX);
        text += length;
        if (*text != '\0') {
            bytes_format(line, "%%%02X", (unsigned)*text++);
        }
    }
}

void add_github(struct bytes *line, const struct result *result) {
    bytes_add_text(line, result->is_note ? "::notice file=" : "::error file=");
    add_command_text(line, result->file, true);
    if (result->place.line > 0) {
        bytes_format(line, ",line=%" PRIu64 ",col=%" PRIu64, result->place.line, result->place.column);
    }
    bytes_add_text(line, ",title=");
    add_command_text(line, result->verdict, true);
    bytes_add_text(line, "::");
    add_command_text(line, result->message, false);
    bytes_add_byte(line, '\n');
}

/* Adds the path as a URI reference. What is not plain is escaped. */
static void add_uri(struct bytes *line, const char *path) {
    static const char plain[] = "-._~/!$&'()*+,;=@";
    bytes_add_byte(line, '"');
    if (path[0] == '/') {
        bytes_add_text(line, "file://");
    }
    for (; *path != '\0'; path++) {
        bool is_plain = (*path >= 'a' && *path <= 'z') || (*path >= 'A' && *path <= 'Z') || (*path >= '0' && *path <= '9') ||
                        strchr(plain, *path) != NULL;
        if (is_plain) {
            bytes_add_byte(line, *path);
        } else {
            bytes_format(line, "%%%02X", (unsigned)(unsigned char)*path);
        }
    }
    bytes_add_byte(line, '"');
}

void add_sarif_head(struct bytes *line, bool has_hints) {
    static const char *const rules[] = {"invalid", "malformed", "outside", "failed", "refused", "note"};
    bytes_add_text(line, "{\"version\": \"2.1.0\", \"$schema\": \"https://json.schemastore.org/sarif-2.1.0.json\", \"runs\": [{\"tool\": "
                         "{\"driver\": {\"name\": \"rncv-xml\", \"version\": \"" PROGRAM_VERSION "\", \"rules\": [");
    for (size_t at = 0; at < sizeof rules / sizeof *rules; at++) {
        bytes_format(line, "%s{\"id\": \"%s\"}", at == 0 ? "" : ", ", rules[at]);
    }
    bytes_add_text(line, has_hints ? ", {\"id\": \"hint\"}" : "");
    bytes_add_text(line, "]}}, \"columnKind\": \"unicodeCodePoints\", \"results\": [");
}

void add_sarif(struct bytes *line, const struct result *result, bool is_first) {
    bytes_format(line, "%s\n{\"ruleId\": \"%s\", \"level\": \"%s\", \"message\": {\"text\": ", is_first ? "" : ",", result->verdict,
                 result->is_note ? "note" : "error");
    add_string(line, result->message, strlen(result->message), false);
    bytes_add_text(line, "}, \"locations\": [{\"physicalLocation\": {\"artifactLocation\": {\"uri\": ");
    add_uri(line, result->file);
    bytes_add_byte(line, '}');
    if (result->place.line > 0) {
        bytes_format(line, ", \"region\": {\"startLine\": %" PRIu64 ", \"startColumn\": %" PRIu64 "}", result->place.line, result->place.column);
    }
    bytes_add_text(line, "}}]");
    if (result->answer != NULL && result->answer->reason != REASON_NOT_KNOWN) {
        add_reason(line, result->answer, ", \"properties\": {");
        bytes_add_byte(line, '}');
    }
    bytes_add_byte(line, '}');
}

void add_sarif_tail(struct bytes *line, bool is_successful) {
    bytes_format(line, "], \"invocations\": [{\"executionSuccessful\": %s}]}]}\n", is_successful ? "true" : "false");
}
