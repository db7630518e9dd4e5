#include "xml_names.h"

uint32_t code_point(struct span text, size_t at, size_t *size) {
    unsigned char lead = (unsigned char)text.data[at];
    *size = lead < 0x80 ? 1 : lead < 0xE0 ? 2 : lead < 0xF0 ? 3 : 4;
    uint32_t code = lead < 0x80 ? lead : lead < 0xE0 ? lead & 0x1Fu : lead < 0xF0 ? lead & 0xFu : lead & 7u;
    for (size_t byte = 1; byte < *size && at + byte < text.length; byte++) {
        code = code << 6 | ((unsigned char)text.data[at + byte] & 0x3Fu);
    }
    return code;
}

bool is_name_character(uint32_t code, bool is_first) {
    static const uint32_t first[][2] = {{'A', 'Z'}, {'_', '_'}, {'a', 'z'}, {0xC0, 0xD6}, {0xD8, 0xF6}, {0xF8, 0x2FF}, {0x370, 0x37D}, {0x37F, 0x1FFF},
                                        {0x200C, 0x200D}, {0x2070, 0x218F}, {0x2C00, 0x2FEF}, {0x3001, 0xD7FF}, {0xF900, 0xFDCF}, {0xFDF0, 0xFFFD},
                                        {0x10000, 0xEFFFF}};
    static const uint32_t later[][2] = {{'-', '.'}, {'0', '9'}, {0xB7, 0xB7}, {0x300, 0x36F}, {0x203F, 0x2040}};
    for (size_t at = 0; at < sizeof first / sizeof *first; at++) {
        if (code >= first[at][0] && code <= first[at][1]) {
            return true;
        }
    }
    for (size_t at = 0; at < sizeof later / sizeof *later && !is_first; at++) {
        if (code >= later[at][0] && code <= later[at][1]) {
            return true;
        }
    }
    return false;
}

bool is_ncname(struct span text) {
    size_t size = 1;
    for (size_t at = 0; at < text.length; at += size) {
        if (!is_name_character(code_point(text, at, &size), at == 0)) {
            return false;
        }
    }
    return text.length > 0;
}

bool is_qname(struct span text, size_t *colon) {
    const char *found = text.length == 0 ? NULL : memchr(text.data, ':', text.length);
    *colon = found == NULL ? 0 : (size_t)(found - text.data);
    if (found == NULL) {
        return is_ncname(text);
    }
    return is_ncname((struct span){text.data, *colon}) && is_ncname((struct span){found + 1, text.length - *colon - 1});
}

bool is_blank_byte(char byte) {
    return byte == ' ' || byte == '\t' || byte == '\n' || byte == '\r';
}

struct span without_blanks(struct span text) {
    while (text.length > 0 && is_blank_byte(text.data[0])) {
        text = (struct span){text.data + 1, text.length - 1};
    }
    while (text.length > 0 && is_blank_byte(text.data[text.length - 1])) {
        text.length--;
    }
    return text;
}

bool is_blank_text(struct span text) {
    return without_blanks(text).length == 0;
}

bool span_equal(struct span one, struct span other) {
    return one.length == other.length && (one.length == 0 || memcmp(one.data, other.data, one.length) == 0);
}

bool span_is(struct span span, const char *text) {
    return span_equal(span, (struct span){text, strlen(text)});
}
