#include "known_names.h"

static struct span span_of(const xmlChar *text) {
    return text == NULL ? (struct span){"", 0} : (struct span){(const char *)text, strlen((const char *)text)};
}

/* The text as the dictionary has it. The texts of the names in an external entity do not stay. NULL: there is none, or out of memory. */
static const xmlChar *staying(xmlDictPtr dictionary, const xmlChar *text) {
    return text == NULL || xmlDictOwns(dictionary, text) == 1 ? text : xmlDictLookup(dictionary, text, -1);
}

const struct event_name *known_name_new(struct known_names *names, xmlDictPtr dictionary, const xmlChar *local, const xmlChar *prefix, const xmlChar *uri,
                                        struct span told) {
    const xmlChar *kept = staying(dictionary, local);
    const xmlChar *kept_prefix = staying(dictionary, prefix);
    if (kept == NULL || (prefix != NULL && kept_prefix == NULL)) {
        return NULL;
    }
    struct event_name name = {long_names_whole(names->long_names, span_of(kept_prefix)), long_names_whole(names->long_names, span_of(kept)), told};
    bool is_undeclared = name.prefix.length > 0 && name.uri.length == 0;
    if (is_undeclared || kept != local || kept_prefix != prefix || (uri != NULL && xmlDictOwns(dictionary, uri) != 1)) {
        names->other = name;
        return &names->other;
    }
    size_t place = known_place(local);
    names->locals[place] = local;
    names->slots[place] = (struct known_name){prefix, uri, name};
    return &names->slots[place].name;
}
