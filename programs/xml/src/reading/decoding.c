#include "decoding.h"

#include <string.h>

enum {
    FEWEST_BYTES = 4,  /* that show how characters are written */
    PLAIN_BYTES = 128  /* that are looked at together */
};

const char read_by_iconv[] = "the encoding '%s' is read by iconv: other programs may read other characters";

static const char not_as_declared[] = "malformed XML: the document is not in the encoding that its declaration names";

static void refuse(struct decoding *decoding, enum fault_kind kind, const char *what) {
    fault_set(&decoding->fault, kind, (struct place){0, 0}, "%s", what);
}

static void out_of_memory(struct decoding *decoding) {
    refuse(decoding, FAULT_MEMORY, "out of memory");
}

/* How long the byte order mark is, and what the first bytes show. */
static size_t mark_of(const struct bytes *first, enum family *family) {
    static const struct {
        enum family family;
        size_t mark;
        size_t length;
        char bytes[5];
    } starts[] = {
        {FAMILY_UTF_32, 4, 4, "\xFF\xFE\0\0"},    {FAMILY_UTF_32, 4, 4, "\0\0\xFE\xFF"},          {FAMILY_UTF_8, 3, 3, "\xEF\xBB\xBF"},
        {FAMILY_UTF_16_LITTLE, 2, 2, "\xFF\xFE"},  {FAMILY_UTF_16_BIG, 2, 2, "\xFE\xFF"},         {FAMILY_UTF_32, 0, 4, "<\0\0\0"},
        {FAMILY_UTF_32, 0, 4, "\0\0\0<"},         {FAMILY_UTF_16_LITTLE, 0, 4, "<\0?\0"},        {FAMILY_UTF_16_BIG, 0, 4, "\0<\0?"},
        {FAMILY_EBCDIC, 0, 4, "\x4C\x6F\xA7\x94"},
    };
    for (size_t at = 0; at < sizeof starts / sizeof *starts; at++) {
        if (first->length >= starts[at].length && memcmp(first->data, starts[at].bytes, starts[at].length) == 0) {
            *family = starts[at].family;
            return starts[at].mark;
        }
    }
    *family = FAMILY_BYTES;
    return 0;
}

static bool is_utf_16(enum family family) {
    return family == FAMILY_UTF_16_LITTLE || family == FAMILY_UTF_16_BIG;
}

/* Whether a document of UTF-16 may declare the encoding. */
static bool fits_utf_16(enum family family, struct span encoding) {
    bool is_little = family == FAMILY_UTF_16_LITTLE;
    return is_named(encoding, "utf-16") || is_named(encoding, is_little ? "utf-16le" : "utf-16be") || is_named(encoding, "iso-10646-ucs-2");
}

static bool is_utf_8_name(struct span encoding) {
    return is_named(encoding, "utf-8") || is_named(encoding, "utf8");
}

/* Refuses an encoding that is not read. */
static void not_read(struct decoding *decoding, struct span encoding) {
    fault_set(&decoding->fault, FAULT_OUTSIDE, (struct place){0, 0},
              "the encoding '%.*s' is not read: outside the profile; iconv -f .. -t UTF-8 may write it as UTF-8", (int)encoding.length, encoding.data);
}

/* Opens the transcoder for the encoding that the document declares. The declaration is in ASCII, and has to be the same in that encoding. */
static void open_declared(struct decoding *decoding, struct span encoding, struct span declaration) {
    bool is_same = false;
    if (encoding.length >= MOST_ENCODING) {
        not_read(decoding, encoding);
        return;
    }
    memcpy(decoding->encoding, encoding.data, encoding.length);
    if (!transcoder_open(&decoding->transcoder, decoding->encoding)) {
        not_read(decoding, encoding);
    } else if (!transcoder_keeps(&decoding->transcoder, declaration, &is_same)) {
        out_of_memory(decoding);
    } else if (!is_same) {
        refuse(decoding, FAULT_MALFORMED, not_as_declared);
    } else {
        decoding->is_transcoded = true;
        decoding->is_by_iconv = decoding->transcoder.encoding == ENCODING_OF_ICONV;
    }
}

/* Refuses UTF-16 that has neither a byte order mark nor a declaration that names it, or another declaration. */
static void check_utf_16(struct decoding *decoding, struct span encoding, bool is_marked) {
    if (encoding.data == NULL && !is_marked) {
        refuse(decoding, FAULT_MALFORMED, "malformed XML: UTF-16 without a byte order mark, which its declaration does not name");
    } else if (encoding.data != NULL && !fits_utf_16(decoding->family, encoding)) {
        refuse(decoding, FAULT_MALFORMED, not_as_declared);
    }
}

/* Sets the encoding, after the declaration was read. */
static void set_encoding(struct decoding *decoding, const struct xml_declaration *declaration, const char *text, bool is_marked) {
    struct span encoding = declaration->encoding;
    if (declaration->wrong != NULL) {
        fault_set(&decoding->fault, FAULT_MALFORMED, (struct place){0, 0}, "malformed XML: %s", declaration->wrong);
    } else if (declaration->is_there && is_named(declaration->version, "1.1")) {
        refuse(decoding, FAULT_OUTSIDE, "outside the profile: XML 1.1 is not read");
    } else if (is_utf_16(decoding->family)) {
        check_utf_16(decoding, encoding, is_marked);
    } else if (encoding.data != NULL && !is_utf_8_name(encoding)) {
        open_declared(decoding, encoding, (struct span){text, declaration->length}); /* it counts more than a byte order mark of UTF-8, as for jing */
    }
}

/* Begins to decode UTF-16. */
static void open_utf_16(struct decoding *decoding) {
    decoding->transcoder = (struct transcoder)NO_TRANSCODER;
    decoding->transcoder.encoding = decoding->family == FAMILY_UTF_16_LITTLE ? ENCODING_UTF_16_LITTLE : ENCODING_UTF_16_BIG;
    decoding->is_transcoded = true;
}

/* Adds the start of the document to `text`, in ASCII where its family has ASCII. False: out of memory. */
static bool add_start(struct decoding *decoding, size_t mark, struct bytes *text) {
    struct span start = {decoding->first.data + mark, decoding->first.length - mark};
    if (!is_utf_16(decoding->family)) {
        bytes_add(text, start.data, start.length);
        return !text->failed;
    }
    open_utf_16(decoding);
    bool is_good = transcoder_add(&decoding->transcoder, start.data, start.length, text);
    bytes_free(&decoding->transcoder.waiting);
    return is_good;
}

/* Whether the text may be the start of an XML declaration, and is too short to tell. */
static bool may_begin(const struct bytes *text) {
    static const char start[] = "<?xml ";
    return text->length < sizeof start - 1 && (text->length == 0 || memcmp(text->data, start, text->length) == 0);
}

/* Leaves out blanks of the declaration in the first bytes, which begins behind the mark. */
static void shorten_declaration(struct decoding *decoding, size_t mark) {
    static const struct code_unit units[] = {{1, 0}, {1, 0}, {2, 0}, {2, 1}};
    if (!decoding->is_declared) {
        decoding->is_declared = true;
        decoding->blanks.looked = mark;
    }
    leave_out_blanks(&decoding->blanks, &decoding->first, units[decoding->family]);
}

/* Finds the encoding in the first bytes, which begin with a mark of this length. */
static void find_declared(struct decoding *decoding, size_t mark, bool is_end) {
    struct bytes text = NO_BYTES;
    if (!add_start(decoding, mark, &text)) {
        out_of_memory(decoding);
    } else if (is_end || !may_begin(&text)) {
        struct xml_declaration declaration = xml_declaration_of((struct span){text.data, text.length}, decoding->is_external);
        decoding->is_known = is_end || !declaration.is_there || declaration.is_whole || decoding->blanks.has_end; /* else it has bytes of no character */
        if (decoding->is_known) {
            set_encoding(decoding, &declaration, text.data, mark > 0);
            decoding->dropped = decoding->is_external ? declaration.length : 0;
            bytes_cut_front(&decoding->first, mark);
        } else {
            shorten_declaration(decoding, mark);
        }
    }
    bytes_free(&text);
}

/* Does the same, if they are enough. */
static void find_encoding(struct decoding *decoding, bool is_end) {
    if (decoding->first.length >= FEWEST_BYTES || is_end) {
        size_t mark = mark_of(&decoding->first, &decoding->family);
        if (decoding->family == FAMILY_UTF_32 || decoding->family == FAMILY_EBCDIC) {
            const char *name = decoding->family == FAMILY_UTF_32 ? "UTF-32" : "EBCDIC";
            not_read(decoding, (struct span){name, strlen(name)});
            return;
        }
        if (decoding->is_declared) {
            shorten_declaration(decoding, mark);
        }
        if (!decoding->is_declared || decoding->blanks.has_end || is_end) {
            find_declared(decoding, mark, is_end);
        }
    }
}

/* The length of the character of UTF-8 that begins with the byte; 0: none does. */
static size_t length_of(unsigned char byte) {
    return byte < 0x80 ? 1 : byte < 0xC2 ? 0 : byte < 0xE0 ? 2 : byte < 0xF0 ? 3 : byte < 0xF5 ? 4 : 0;
}

/* The character that the bytes are; 0: they are none that XML allows. The first byte gives the length. */
static unsigned code_of(const char *bytes, size_t length) {
    static const unsigned least[] = {0, 0, 0x80, 0x800, 0x10000};
    unsigned code = (unsigned char)bytes[0] & (length == 1 ? 0x7FU : 0x7FU >> length);
    for (size_t at = 1; at < length; at++) {
        if (((unsigned char)bytes[at] & 0xC0) != 0x80) {
            return 0;
        }
        code = code << 6 | ((unsigned char)bytes[at] & 0x3F);
    }
    bool is_character = code >= least[length] && (code >= 0x20 || code == '\t' || code == '\n') && code <= 0x10FFFF && code != 0xFFFE && code != 0xFFFF &&
                        (code < 0xD800 || code > 0xDFFF);
    return is_character ? code : 0;
}

static bool is_plain(char byte) {
    return (unsigned char)byte < 0x80 && ((unsigned char)byte >= ' ' || byte == '\n' || byte == '\t');
}

/* Whether the next eight bytes are all in ASCII, and from a space on or line feeds. */
static bool are_plain(const char *bytes) {
    const uint64_t high = UINT64_C(0x8080808080808080);
    uint64_t word;
    memcpy(&word, bytes, sizeof word);
    uint64_t printed = (word | high) - UINT64_C(0x2020202020202020);                                    /* the high bit is there from a space on */
    uint64_t other = ((word ^ UINT64_C(0x0A0A0A0A0A0A0A0A)) | high) - UINT64_C(0x0101010101010101); /* and here but for a line feed */
    return ((word | ~(printed | ~other)) & high) == 0;
}

/* Whether so many bytes are all plain. It looks at all of them in the same way, so compilers look at many together. */
static bool are_all_plain(const char *bytes) {
    unsigned char others = 0;
    for (size_t at = 0; at < PLAIN_BYTES; at++) {
        others = (unsigned char)(others | (((signed char)bytes[at] < ' ') & (bytes[at] != '\n') & (bytes[at] != '\t')));
    }
    return others == 0;
}

/* How many bytes from here on are characters of ASCII that need no care. */
static size_t plain_length(const char *bytes, size_t length) {
    size_t at = 0;
    while (length - at >= PLAIN_BYTES && are_all_plain(bytes + at)) {
        at += PLAIN_BYTES;
    }
    size_t stop = at;
    while (at == stop && at < length) {
        while (length - at >= 8 && are_plain(bytes + at)) {
            at += 8;
        }
        stop = length - at > 8 ? at + 8 : length;
        while (at < stop && is_plain(bytes[at])) {
            at++;
        }
    }
    return at;
}

/* Adds the character at the start of the bytes, which is no plain one. Returns how many bytes it has; 0: it is not whole, or there is a fault. */
static size_t add_character(struct decoding *decoding, const char *bytes, size_t length, struct bytes *text) {
    if (bytes[0] == '\r') {
        decoding->after_return = true;
        bytes_add_byte(text, '\n');
        return 1;
    }
    size_t size = length_of((unsigned char)bytes[0]);
    if (size > length && !decoding->is_transcoded) {
        return 0;
    }
    unsigned code = size == 0 || size > length ? 0 : code_of(bytes, size);
    if (code == 0) {
        refuse(decoding, FAULT_MALFORMED, size <= 1 && (unsigned char)bytes[0] < 0x80 ? "malformed XML: a character that XML does not allow"
                                          : decoding->is_transcoded ? "malformed XML: bytes that are no character of the encoding"
                                                                    : "malformed XML: bytes that are no character of UTF-8");
        return 0;
    }
    bytes_add(text, bytes, size);
    decoding->has_longer |= size > 1;
    return size;
}

/* Adds UTF-8 to the text. Returns how many bytes were taken: all but the start of a character at the end, unless there is a fault. */
static size_t add_text(struct decoding *decoding, const char *bytes, size_t length, struct bytes *text) {
    size_t at = 0;
    while (at < length && decoding->fault.kind == FAULT_NONE) {
        at += decoding->after_return && bytes[at] == '\n';
        decoding->after_return = false;
        size_t plain = plain_length(bytes + at, length - at);
        bytes_add(text, bytes + at, plain);
        at += plain;
        if (at < length) {
            size_t size = add_character(decoding, bytes + at, length - at, text);
            if (size == 0) {
                break;
            }
            at += size;
        }
    }
    return at;
}

/* Adds UTF-8 that comes in pieces, of which a character may have several. */
static void add_piece(struct decoding *decoding, const char *bytes, size_t length, struct bytes *text) {
    size_t dropped = decoding->dropped < length ? decoding->dropped : length;
    decoding->dropped -= dropped;
    bytes += dropped;
    length -= dropped;
    while (decoding->begun_length > 0 && length > 0 && decoding->fault.kind == FAULT_NONE) {
        decoding->begun[decoding->begun_length++] = *bytes++;
        length--;
        if (decoding->begun_length >= length_of((unsigned char)decoding->begun[0])) {
            add_text(decoding, decoding->begun, decoding->begun_length, text);
            decoding->begun_length = 0;
        }
    }
    size_t taken = add_text(decoding, bytes, length, text);
    if (decoding->fault.kind == FAULT_NONE && taken < length) {
        decoding->begun_length = length - taken;
        memcpy(decoding->begun, bytes + taken, length - taken);
    }
}

/* Adds bytes of the encoding, which is known. */
static void add_bytes(struct decoding *decoding, const char *bytes, size_t length, struct bytes *text) {
    if (!decoding->is_transcoded) {
        add_piece(decoding, bytes, length, text);
        return;
    }
    bytes_clear(&decoding->decoded);
    if (!transcoder_add(&decoding->transcoder, bytes, length, &decoding->decoded)) {
        out_of_memory(decoding);
    }
    add_piece(decoding, decoding->decoded.data, decoding->decoded.length, text);
}

/* Adds the first bytes, once the encoding is known. */
static void add_first(struct decoding *decoding, struct bytes *text) {
    if (decoding->is_known && decoding->fault.kind == FAULT_NONE) {
        add_bytes(decoding, decoding->first.data, decoding->first.length, text);
    }
    if (decoding->is_known) {
        bytes_free(&decoding->first);
    }
}

void decoding_take(struct decoding *decoding, const char *bytes, size_t length, struct bytes *text) {
    if (decoding->fault.kind != FAULT_NONE) {
        return;
    }
    if (decoding->is_known) {
        add_bytes(decoding, bytes, length, text);
    } else {
        bytes_add(&decoding->first, bytes, length);
        if (decoding->first.failed) {
            out_of_memory(decoding);
            return;
        }
        find_encoding(decoding, false);
        add_first(decoding, text);
    }
    if (text->failed) {
        out_of_memory(decoding);
    }
}

void decoding_end(struct decoding *decoding, struct bytes *text) {
    if (!decoding->is_known && decoding->fault.kind == FAULT_NONE) {
        find_encoding(decoding, true);
        add_first(decoding, text);
    }
    if (decoding->fault.kind == FAULT_NONE && decoding->is_transcoded) {
        bytes_clear(&decoding->decoded);
        if (!transcoder_end(&decoding->transcoder, &decoding->decoded)) {
            out_of_memory(decoding);
        }
        add_piece(decoding, decoding->decoded.data, decoding->decoded.length, text);
    }
    if (decoding->fault.kind == FAULT_NONE && decoding->begun_length > 0) {
        refuse(decoding, FAULT_MALFORMED, "malformed XML: bytes that are no character of UTF-8");
    }
    if (text->failed) {
        out_of_memory(decoding);
    }
}

void decoding_free(struct decoding *decoding) {
    transcoder_close(&decoding->transcoder);
    bytes_free(&decoding->first);
    bytes_free(&decoding->decoded);
    fault_free(&decoding->fault);
}
