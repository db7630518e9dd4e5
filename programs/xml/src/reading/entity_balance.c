#include "entity_balance.h"

#include "entity_text.h"
#include "events.h"
#include "parser_words.h"

#include <libxml/parser.h>
#include <libxml/parserInternals.h>
#include <limits.h>

static const char begin[] = "<text>";
static const char end[] = "</text>";

/* Gives a comment in the place of each reference in content, and nothing in values. */
static bool open_nothing(void *context, struct span name, bool is_in_value, struct span *text) {
    static const char comment[] = "<!---->";
    (void)context;
    (void)name;
    *text = (struct span){comment, is_in_value ? 0 : sizeof comment - 1};
    return true;
}

static void close_nothing(void *context) {
    (void)context;
}

static void take_error(void *context, parser_error *error) {
    (void)context;
    stop_in_comment(error);
}

#if LIBXML_VERSION < 20911
/* Stops where these versions would call themselves for too many elements in one another. Such a text counts as unbalanced, and libxml2 then reads it. */
static void take_start(void *context, const xmlChar *local, const xmlChar *prefix, const xmlChar *uri, int namespace_count, const xmlChar **namespaces,
                       int attribute_count, int default_count, const xmlChar **attributes) {
    xmlParserCtxtPtr parser = context;
    (void)local, (void)prefix, (void)uri, (void)namespace_count, (void)namespaces, (void)attribute_count, (void)default_count, (void)attributes;
    if (parser->nameNr > USUAL_DEPTH) {
        parser->wellFormed = 0;
        parser->instate = XML_PARSER_EOF;
    }
}
#endif

/* Whether it is a well-formed document. */
static bool is_document(const char *text, size_t length) {
    xmlParserCtxtPtr parser = length > INT_MAX ? NULL : xmlCreateMemoryParserCtxt(text, (int)length);
    if (parser == NULL) {
        return false;
    }
    memset(parser->sax, 0, sizeof *parser->sax);
    parser->sax->initialized = XML_SAX2_MAGIC;
    parser->sax->serror = take_error;
#if LIBXML_VERSION < 20911
    parser->sax->startElementNs = take_start;
#endif
    xmlCtxtUseOptions(parser, XML_PARSE_HUGE | XML_PARSE_NONET | XML_PARSE_IGNORE_ENC);
    xmlParseDocument(parser);
    bool is_well_formed = parser->wellFormed;
    xmlDocPtr document = parser->myDoc;
    xmlFreeParserCtxt(parser);
    xmlFreeDoc(document);
    return is_well_formed;
}

/* A text is balanced exactly if it can be that of an element: a tag in it that ended the element would have this end tag behind the root. */
bool entity_is_balanced(struct span text) {
    struct bytes written = NO_BYTES;
    bytes_add_text(&written, begin);
    entity_text_content(text, &(struct entity_source){open_nothing, close_nothing, NULL}, &written);
    bytes_add_text(&written, end);
    bool is_balanced = !written.failed && is_document(written.data, written.length);
    bytes_free(&written);
    return is_balanced;
}
