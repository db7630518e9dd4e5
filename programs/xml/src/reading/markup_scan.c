#include "markup_scan.h"

/* Begins a comment, an instruction or a section. */
static void enter(struct markup_scan *scan, char kind, uint64_t offset, const char *begin) {
    scan->kind = kind;
    scan->behind = offset + strlen(begin);
}

/* Finds out what the `<` begins. */
static void open_markup(struct markup_scan *scan, uint64_t offset, struct span text) {
    if (span_begins(text, "<!--")) {
        enter(scan, '-', offset, "<!--");
    } else if (span_begins(text, "<?")) {
        enter(scan, '?', offset, "<?");
    } else if (scan->is_content && span_begins(text, "<![CDATA[")) {
        enter(scan, ']', offset, "<![CDATA[");
    } else if (!span_begins(text, "<!")) {
        scan->is_content = true;
    }
}

/* The end of what is being read. */
static const char *end_of(const struct markup_scan *scan) {
    return scan->kind == '-' ? "-->" : scan->kind == '?' ? "?>" : "]]>";
}

bool markup_look(struct markup_scan *scan, uint64_t offset, struct span text) {
    char byte = text.data[0];
    bool is_quote = byte == '"' || byte == '\'';
    bool is_in_literal = scan->kind == '"' || scan->kind == '\'';
    if (offset < scan->behind) {
        return false;
    }
    if (scan->kind != '\0' && !is_in_literal) {
        scan->kind = span_begins(text, end_of(scan)) ? '\0' : scan->kind;
        return false;
    }
    if (is_in_literal) {
        scan->kind = byte == scan->kind ? '\0' : scan->kind;
    } else if (is_quote && !scan->is_content) {
        scan->kind = byte;
    } else if (byte == '<') {
        open_markup(scan, offset, text);
    }
    return byte == '&';
}
