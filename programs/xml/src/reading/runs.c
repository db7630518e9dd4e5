#include "runs.h"

#include "xml_names.h"

enum {
    WORDS_OF_LIST = 2, /* before the attributes: `ATTLIST` and the name of the element */
    DELETE = 0x7F
};

/* Whether the code is that of a character that is in values and identifiers as it is. */
static bool is_plain(uint32_t code) {
    return code >= DELETE && code != 0xFFFE && code != 0xFFFF;
}

static bool is_letter_or_digit(char byte) {
    return (byte >= 'a' && byte <= 'z') || (byte >= 'A' && byte <= 'Z') || (byte >= '0' && byte <= '9');
}

static bool is_one_of(char byte, const char *bytes) {
    return byte != '\0' && strchr(bytes, byte) != NULL;
}

/* Whether the byte, which is a character by itself, is in a value or an identifier, and nothing but itself. */
static bool is_itself(char byte, const char *others) {
    return byte > ' ' && byte < DELETE && byte != '"' && byte != '\'' && !is_one_of(byte, others);
}

/* Whether the byte, which is a character by itself and no quote, is in runs of this kind. */
static bool is_in(enum run_kind kind, char byte) {
    switch (kind) {
        case RUN_NAME:
            return is_letter_or_digit(byte) || is_one_of(byte, "-._");
        case RUN_BLANKS:
            return is_blank_byte(byte);
        case RUN_ZEROS:
            return byte == '0';
        case RUN_PUBLIC:
            return is_letter_or_digit(byte) || is_one_of(byte, " \n-()+,./:=?;!*#@$_%");
        case RUN_SYSTEM:
            return is_blank_byte(byte) || is_itself(byte, "#");
        case RUN_VALUE:
            return is_blank_byte(byte) || is_itself(byte, "<&");
        case RUN_ENTITY:
            return is_blank_byte(byte) || is_itself(byte, "%&");
        case RUN_NONE:
            break;
    }
    return false;
}

enum { BYTES = 256, FIRST_OF_LONGER = 0x80 /* the first byte that is no character by itself */ };

/* The kinds of runs that each byte is in: a bit for each. */
static const unsigned *kinds_of_bytes(void) {
    static _Thread_local unsigned kinds[BYTES];
    if (kinds['0'] == 0) {
        for (unsigned at = 0; at < FIRST_OF_LONGER * RUN_KINDS; at++) {
            enum run_kind kind = (enum run_kind)(at % RUN_KINDS);
            kinds[at / RUN_KINDS] |= is_in(kind, (char)(at / RUN_KINDS)) ? 1U << kind : 0;
        }
    }
    return kinds;
}

/* Whether the run goes on with the character. */
static bool goes_on_with(const struct run_scan *scan, uint32_t code) {
    switch (scan->kind) {
        case RUN_NAME:
            return is_name_character(code, false);
        case RUN_SYSTEM:
        case RUN_VALUE:
        case RUN_ENTITY:
            return is_plain(code);
        case RUN_NONE:
        case RUN_BLANKS:
        case RUN_ZEROS:
        case RUN_PUBLIC:
            break;
    }
    return false;
}

/* Whether the byte is the other quote than the one around the literal. Only a public identifier has no other one (production 13). */
static bool is_other_quote(const struct run_scan *scan, char byte) {
    bool is_quote = byte == '\'' || (byte == '"' && scan->kind != RUN_PUBLIC);
    return is_quote && scan->kind >= RUN_PUBLIC && byte != scan->quote;
}

/* Whether the byte is a `#` behind the first one of a system identifier. By that one libxml2 finds that there is a fragment. */
static bool is_in_fragment(const struct run_scan *scan, char byte) {
    return byte == '#' && scan->kind == RUN_SYSTEM && scan->has_fragment;
}

/* How many bytes the character has with which the run goes on and that is not by itself in such runs; 0: it does not go on. */
static size_t other_size(const struct run_scan *scan, struct span text) {
    size_t size = 1;
    if ((unsigned char)text.data[0] < DELETE) {
        return is_other_quote(scan, text.data[0]) || is_in_fragment(scan, text.data[0]) ? 1 : 0;
    }
    return goes_on_with(scan, code_point(text, 0, &size)) ? size : 0;
}

/* How many bytes at the start of the text are of the kinds with these bits. Values of megabytes are looked at by this. */
static size_t plain_length(struct span text, unsigned bits) {
    const unsigned *kinds = kinds_of_bytes();
    const char *end = text.data + text.length;
    const char *at = text.data;
    while (at < end && (kinds[(unsigned char)*at] & bits) != 0) {
        at++;
    }
    return (size_t)(at - text.data);
}

size_t run_length(const struct run_scan *scan, struct span text) {
    unsigned bits = 1U << scan->kind;
    size_t at = plain_length(text, bits);
    size_t size = 1;
    while (at < text.length && size > 0) {
        size = other_size(scan, span_from(text, at));
        at += size == 0 ? 0 : size + plain_length(span_from(text, at + size), bits);
    }
    return at < text.length ? at : text.length;
}

static bool is_word(const struct run_scan *scan, const char *word) {
    size_t length = strlen(word);
    return scan->word_length == length && memcmp(scan->word, word, length) == 0;
}

static void begin_run(struct run_scan *scan, enum run_kind kind, uint64_t offset) {
    scan->kind = kind;
    scan->run = offset;
}

/* The kind of runs in the literal that begins. */
static enum run_kind kind_of_literal(const struct run_scan *scan) {
    if (scan->part == PART_TAG || scan->is_list) {
        return RUN_VALUE;
    }
    if (scan->words == 3 && is_word(scan, "PUBLIC")) {
        return scan->literals == 0 ? RUN_PUBLIC : RUN_SYSTEM;
    }
    if (scan->words == 3 && is_word(scan, "SYSTEM")) {
        return RUN_SYSTEM;
    }
    return scan->is_entity && scan->words == 2 ? RUN_ENTITY : RUN_NONE;
}

/* Takes a quote, which begins a literal behind it. */
static void open_literal(struct run_scan *scan, char quote) {
    scan->literal = kind_of_literal(scan);
    scan->quote = quote;
    scan->sure = scan->looked + 1;
    scan->literals++;
    scan->has_fragment = false;
    begin_run(scan, scan->literal, scan->sure);
}

/* Begins a name, or the part of one behind a colon. */
static void begin_name(struct run_scan *scan) {
    if (!scan->is_joined) {
        scan->is_entity |= scan->words == 1 && is_word(scan, "ENTITY");
        scan->is_list |= scan->words == 1 && is_word(scan, "ATTLIST");
        scan->words++;
        scan->word_length = 0;
    }
    scan->is_joined = false;
    begin_run(scan, RUN_NAME, scan->looked);
}

/* Adds to the beginning of the name that is being read. */
static void add_to_word(struct run_scan *scan, struct span text) {
    for (size_t at = 0; at < text.length && scan->word_length < WORD_BYTES; at++) {
        scan->word[scan->word_length++] = text.data[at];
    }
}

/* How many bytes the character at the start of the text has. */
static size_t character_size(struct span text) {
    size_t size = 1;
    code_point(text, 0, &size);
    return size < text.length ? size : text.length;
}

/* Whether the character at the start of the text is in names. */
static bool is_of_name(struct span text) {
    const struct run_scan name = {.kind = RUN_NAME};
    return run_length(&name, (struct span){text.data, character_size(text)}) > 0;
}

/* Looks at what comes behind an ampersand or `&#`. False: it is nothing of a reference. */
static bool look_in_reference(struct run_scan *scan, struct span text, bool is_name) {
    char byte = text.data[0];
    enum run_reference reference = scan->reference;
    scan->reference = REFERENCE_NONE;
    if (reference == REFERENCE_BEGUN && byte == '#') {
        scan->reference = REFERENCE_NUMBER;
    } else if (reference == REFERENCE_NUMBER && byte == 'x') {
        scan->reference = REFERENCE_NUMBER;
    } else if (reference == REFERENCE_NUMBER && byte == '0') {
        begin_run(scan, RUN_ZEROS, scan->looked);
    } else if (reference == REFERENCE_BEGUN && is_name) {
        begin_run(scan, RUN_NAME, scan->looked);
    } else {
        return false;
    }
    return true;
}

/* Looks at the byte in a literal that no run goes on with. */
static void look_in_literal(struct run_scan *scan, char byte) {
    scan->sure = scan->looked;
    if (byte == scan->quote) {
        scan->quote = '\0';
    } else if (scan->literal == RUN_PUBLIC) {
        scan->part = PART_OTHER; /* libxml2 finds a fault there */
    } else if (byte == '&') {
        scan->reference = REFERENCE_BEGUN;
    } else if (byte == '#' && scan->literal == RUN_SYSTEM && !scan->has_fragment) {
        scan->has_fragment = true;
    } else {
        begin_run(scan, scan->literal, scan->looked);
    }
}

void runs_restart(struct run_scan *scan, uint64_t offset) {
    *scan = (struct run_scan){.looked = offset};
}

/* Looks at the byte between declarations, or at the beginning of one. */
static void look_in_subset(struct run_scan *scan, char byte) {
    if (scan->part == PART_OPENED) {
        runs_restart(scan, scan->looked);
        scan->part = byte == '!' ? PART_DECLARATION : byte == '?' ? PART_NAME : PART_OTHER;
    } else if (byte == '%') {
        scan->reference = REFERENCE_BEGUN;
    } else if (byte == '<') {
        scan->part = PART_OPENED;
    } else if (byte == ']') {
        scan->part = PART_OTHER;
    }
}

/* Whether the markup ends with the byte. Comments and sections have no such runs. */
static bool is_end_of_part(const struct run_scan *scan, char byte) {
    bool is_comment = scan->part == PART_DECLARATION && scan->words == 0 && byte == '-';
    bool is_of_data = scan->part == PART_NAME && !is_blank_byte(byte);
    return is_of_data || is_comment || is_one_of(byte, "<>[");
}

/* Looks at the byte in a tag or declaration, outside literals, that no run goes on with. */
static void look_outside(struct run_scan *scan, char byte) {
    scan->behind = scan->part == PART_NAME && byte == ';' ? scan->looked + 1 : 0;
    if (byte == ':') {
        scan->is_joined = true;
        add_to_word(scan, (struct span){":", 1});
    } else if (is_end_of_part(scan, byte)) {
        scan->part = scan->part == PART_DECLARATION && byte == '>' ? PART_SUBSET : PART_OTHER;
    } else if (is_blank_byte(byte)) {
        begin_run(scan, RUN_BLANKS, scan->looked);
        scan->is_joined = false;
    } else if (byte == '"' || byte == '\'') {
        open_literal(scan, byte);
    } else {
        scan->is_joined = false;
    }
}

void runs_begin_list(struct run_scan *scan, uint64_t offset) {
    runs_restart(scan, offset);
    scan->part = PART_DECLARATION;
    scan->words = WORDS_OF_LIST;
    scan->is_list = true;
}

void runs_begin(struct run_scan *scan, uint64_t offset, struct span text, bool is_declared) {
    bool is_declaration = span_begins(text, "<!") || span_begins(text, "<?");
    runs_restart(scan, offset);
    if (is_declaration || text.data[0] == '%') {
        scan->part = PART_SUBSET;
    } else if (text.data[0] == '&') {
        scan->part = PART_NAME;
        scan->reference = REFERENCE_BEGUN;
        scan->looked++;
    } else if (text.data[0] == '<') {
        scan->part = PART_TAG;
        scan->looked += span_begins(text, "</") ? 2 : 1;
    } else if (is_declared && (is_of_name(text) || is_one_of(text.data[0], "|,"))) {
        runs_begin_list(scan, offset);
    }
}

/* Looks at the character at the start of the text, which no run goes on with. */
static void look_at_other(struct run_scan *scan, struct span text) {
    char byte = text.data[0];
    bool is_name = is_of_name(text);
    if (scan->part == PART_NAME && scan->kind == RUN_BLANKS) {
        scan->part = PART_OTHER; /* the data of an instruction */
        return;
    }
    scan->kind = RUN_NONE;
    if (scan->reference != REFERENCE_NONE && look_in_reference(scan, text, is_name)) {
        return;
    }
    if (scan->quote != '\0') {
        look_in_literal(scan, byte);
    } else if (scan->part == PART_SUBSET || scan->part == PART_OPENED) {
        look_in_subset(scan, byte);
    } else if (is_name && !(scan->part == PART_DECLARATION && scan->words == 0 && byte == '-')) {
        begin_name(scan);
    } else {
        look_outside(scan, byte);
    }
}

size_t runs_look(struct run_scan *scan, struct span text) {
    if (scan->part == PART_OTHER) {
        scan->looked += text.length;
        return text.length;
    }
    size_t length = run_length(scan, text);
    if (length == 0) {
        look_at_other(scan, text);
        length = run_length(scan, text);
        scan->kind = length == 0 && scan->run <= scan->looked ? RUN_NONE : scan->kind;
    }
    if (scan->kind == RUN_NAME && scan->quote == '\0') {
        add_to_word(scan, (struct span){text.data, length});
    }
    length = length == 0 ? character_size(text) : length;
    scan->looked += length;
    return length;
}
