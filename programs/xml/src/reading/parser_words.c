#include "parser_words.h"

#include <string.h>

static const char *known(const char *text) {
    return text == NULL ? "" : text;
}

bool is_of_validity(parser_error *error) {
    bool is_memory = error->code == XML_ERR_NO_MEMORY;
    return !is_memory && (error->domain == XML_FROM_DTD || error->domain == XML_FROM_VALID || error->domain == XML_FROM_TREE);
}

bool is_malformed(parser_error *error) {
    if (error->domain == XML_FROM_NAMESPACE) {
        return error->code == XML_NS_ERR_XML_NAMESPACE || error->code == XML_NS_ERR_COLON || error->code == XML_NS_ERR_EMPTY;
    }
    /* a system identifier may be any text (production 11) */
    return error->level >= XML_ERR_ERROR && error->code != XML_ERR_INVALID_URI && !is_of_validity(error);
}

bool is_about_group(const parser_error *error) {
    return error->code == XML_ERR_ENTITY_BOUNDARY && strstr(known(error->message), "content declaration") != NULL;
}

bool is_limit(parser_error *error) {
    bool is_deep = error->code == XML_ERR_ELEMCONTENT_NOT_FINISHED && strstr(known(error->message), "too deep") != NULL;
    return error->domain == XML_FROM_PARSER && (is_deep || error->code == XML_ERR_NAME_TOO_LONG);
}

void stop_in_comment(parser_error *error) {
    xmlParserCtxtPtr parser = error->ctxt;
    if (error->domain == XML_FROM_PARSER && error->code == XML_ERR_HYPHEN_IN_COMMENT && parser != NULL) {
        parser->instate = XML_PARSER_EOF;
    }
}

/* Whether a literal is too long, and not a name. */
static bool is_of_literal(const parser_error *error) {
    return strcmp(known(error->str1), "SystemLiteral") == 0 || strcmp(known(error->str1), "Public ID") == 0;
}

const char *limit_words(parser_error *error) {
    switch (error->code) {
    case XML_ERR_NAME_TOO_LONG:
        return is_of_literal(error) ? "over a limit of this program: a literal has more than 10,000,000 bytes"
                                    : "over a limit of this program: a name has more than 10,000,000 bytes";
    default:
        return "over a limit of this program: a declaration has more than 2,048 brackets in one another";
    }
}

/* Adds libxml2's own words, without the names of its functions. */
static void add_own(struct bytes *line, const char *message) {
    const char *colon = strstr(message, ": ");
    if (strstr(message, "Markup declaration") != NULL) { /* an internal error, which has no code of its own */
        bytes_add_text(line, "neither a declaration nor the end of the document type");
        return;
    }
    if (strncmp(message, "internal error", 14) == 0 || strncmp(message, "detected an error", 17) == 0) {
        bytes_add_text(line, "not well-formed");
        return;
    }
    if (strncmp(message, "xmlParse", 8) == 0 && colon != NULL && memchr(message, ' ', (size_t)(colon - message)) == NULL) {
        message = colon + 2;
    }
    size_t length = strcspn(message, "\n");
    while (length > 0 && message[length - 1] == ' ') {
        length--;
    }
    bytes_add(line, message, length);
}

void add_words(struct bytes *line, parser_error *error) {
    switch (error->code) {
    case XML_ERR_TAG_NAME_MISMATCH:
        bytes_format(line, "mismatched tag: </%s> where <%s> is open", known(error->str2), known(error->str1));
        break;
    case XML_ERR_TAG_NOT_FINISHED:
        bytes_format(line, "the document ends where <%s> is open", known(error->str1));
        break;
    case XML_ERR_DOCUMENT_EMPTY:
        bytes_add_text(line, "no root element");
        break;
    case XML_ERR_DOCUMENT_END:
        bytes_add_text(line, "something after the root element");
        break;
    case XML_ERR_ATTRIBUTE_REDEFINED:
        bytes_format(line, "the attribute %s%s%s is there twice", known(error->str2), error->str2 == NULL ? "" : ":", known(error->str1));
        break;
    case XML_ERR_ENTITY_LOOP:
        bytes_add_text(line, "recursive entity reference");
        break;
    case XML_ERR_SEPARATOR_REQUIRED:
        bytes_add_text(line, "',' and '|' in one bracket of a declaration");
        break;
    case XML_ERR_INVALID_HEX_CHARREF:
    case XML_ERR_INVALID_DEC_CHARREF: /* libxml2 may have got another number than the document has */
        bytes_add_text(line, "neither a digit nor ';' in a reference to a character");
        break;
    case XML_ERR_LT_IN_ATTRIBUTE:
        bytes_add_text(line, "'<' in the value of an attribute");
        break;
    default:
        add_own(line, known(error->message));
    }
}
