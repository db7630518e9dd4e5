/* Hints about names and datatypes: S11 and S12. For a datatype or a parameter that is not served the hint says what to do. */
#include "rncv.h"
#include "schema_asked.h"
#include "schema_hinting.h"
#include "schema_types.h"
#include "xml_names.h"

#include <string.h>

enum { MOST_CLASSES = 300, MOST_PATH = 200 };

static const char xmlns_uri[] = "http://www.w3.org/2000/xmlns";
static const char xsd_uri[] = "http://www.w3.org/2001/XMLSchema-datatypes";
static const char compatibility_uri[] = "http://relaxng.org/ns/compatibility/datatypes/1.0";

uint32_t name_of(struct hinting *hinting, uint32_t setting, bool is_attribute, struct span *name) {
    const char *colon = name->length == 0 ? NULL : memchr(name->data, ':', name->length);
    struct span prefix = {"", 0};
    if (colon == NULL) {
        return is_attribute ? 0 : namespace_of(&hinting->grammars, setting, prefix);
    }
    prefix = (struct span){name->data, (size_t)(colon - name->data)};
    *name = (struct span){colon + 1, name->length - prefix.length - 1};
    return namespace_of(&hinting->grammars, setting, prefix);
}

static void hint_star(struct hinting *hinting, uint32_t star, uint32_t around) {
    if (hint_begins(hinting, star)) {
        add_part(hinting, hint_node(hinting, star)->text);
        bytes_add_text(&hinting->text, " is in an except of ");
        add_part(hinting, hint_node(hinting, around)->text);
    }
}

/* Looks for a name that no attribute has. */
static void judge_name(struct hinting *hinting, struct spot spot) {
    struct span written = hint_node(hinting, spot.node)->text;
    struct span local = written;
    uint32_t uri = name_of(hinting, spot.setting, true, &local);
    bool is_name = hint_node(hinting, spot.node)->kind == CLASS_NAME;
    bool is_reserved = uri != NONE && uri < hinting->grammars.tree.uri_count && span_is(hinting->grammars.tree.uris[uri], xmlns_uri);
    if ((is_reserved || (is_name && uri == 0 && span_is(local, "xmlns"))) && hint_begins(hinting, spot.node)) {
        add_part(hinting, written);
        bytes_add_text(&hinting->text, " is no name of an attribute, since it declares a namespace");
    }
}

/* Looks into a class. `around` is the star, or the `p:*`, whose except this is in, or 0. */
static void judge_class(struct hinting *hinting, struct spot spot, uint32_t around, bool is_attribute, int depth) {
    if (depth > MOST_CLASSES || !tree_step(&hinting->grammars.tree, 1)) {
        return;
    }
    const struct node *node = hint_node(hinting, spot.node);
    bool is_star = node->kind == CLASS_ANY || node->kind == CLASS_NAMES;
    if (is_star && around != 0 && (node->kind == CLASS_ANY || hint_node(hinting, around)->kind == CLASS_NAMES)) {
        hint_star(hinting, spot.node, around);
    }
    if (is_attribute && (node->kind == CLASS_NAME || node->kind == CLASS_NAMES)) {
        judge_name(hinting, spot);
    }
    /* an except in an except of a star is in that of the star too, and a star is in neither */
    bool is_outer = is_star && (around == 0 || hint_node(hinting, around)->kind == CLASS_ANY);
    for (uint32_t child = node->child; child != 0; child = hint_node(hinting, child)->next) {
        judge_class(hinting, (struct spot){child, spot.scope, spot.setting}, is_outer ? spot.node : around, is_attribute, depth + 1);
    }
}

void judge_names(struct hinting *hinting, struct spot spot) {
    const struct node *node = hint_node(hinting, spot.node);
    if ((node->kind == NODE_ELEMENT || node->kind == NODE_ATTRIBUTE) && node->class != 0) {
        struct spot class = {node->class, spot.scope, spot.setting};
        judge_class(hinting, class, 0, node->kind == NODE_ATTRIBUTE, 0);
    }
}

/* A datatype that a set has not, and what rncv-profile writes in its place (programs/profile/profile_types.py has the same table). */
struct nearest {
    const char *type;
    const char *with;
    const char *accepts; /* what a copy accepts there */
};

static const struct nearest *nearest_of(struct span type) {
    static const char text[] = "xsd:token";
    static const char any[] = "any text";
    static const char number[] = "xsd:integer";
    static const char fewer[] = "the same but for numbers of more than 38 digits";
    static const char ids[] = "more, but rncv-xml checks the IDs";
    static const char sign[] = "numbers with a sign too, and none of more than 38 digits";
    static const struct nearest table[] = {
        {"decimal", text, any}, {"float", text, any}, {"double", text, any}, {"duration", text, any}, {"dateTime", text, any}, {"date", text, any},
        {"time", text, any}, {"gYear", text, any}, {"gYearMonth", text, any}, {"gMonth", text, any}, {"gMonthDay", text, any}, {"gDay", text, any},
        {"hexBinary", text, any}, {"base64Binary", text, any}, {"anyURI", text, any}, {"language", "xsd:NMTOKEN", "any name token"},
        {"Name", "xsd:NMTOKEN", "any name token"}, {"QName", "xsd:NMTOKEN", "any name token"}, {"NOTATION", "xsd:NMTOKEN", "any name token"},
        {"normalizedString", "xsd:string", "the same"}, {"NMTOKENS", "a list of xsd:NMTOKEN or xsd:token", "the same or more"},
        {"ID", "xsd:NCName", ids}, {"IDREF", "xsd:NCName", ids},
        {"IDREFS", "a list of xsd:NCName or xsd:token", ids}, {"ENTITY", "xsd:NCName", "any name without a colon"},
        {"ENTITIES", "a list of xsd:NCName or xsd:token", "any names, or any text"}, {"long", number, fewer}, {"int", number, fewer}, {"short", number, fewer},
        {"byte", number, fewer}, {"nonNegativeInteger", number, fewer}, {"positiveInteger", number, fewer}, {"nonPositiveInteger", number, fewer},
        {"negativeInteger", number, fewer}, {"unsignedLong", number, sign}, {"unsignedInt", number, sign}, {"unsignedShort", number, sign},
        {"unsignedByte", number, sign}};
    for (size_t at = 0; at < sizeof table / sizeof *table; at++) {
        if (span_is(type, table[at].type)) {
            return &table[at];
        }
    }
    return NULL;
}

/* Adds the path of the main file as a word for a shell, if it is not too long. */
static void add_main(struct hinting *hinting) {
    const struct schema_hint_file *main = hinting->grammars.tree.files[0].given;
    struct span path = main->shown == NULL ? (struct span){main->name, main->name_length} : (struct span){main->shown, strlen(main->shown)};
    bool is_odd = false;
    for (size_t at = 0; at < path.length; at++) {
        is_odd |= (unsigned char)path.data[at] <= ' ' || strchr("\"'\\$`&|;<>()*?[]~#!{}\x7F", path.data[at]) != NULL;
    }
    if (is_odd || path.length > MOST_PATH) {
        bytes_add_text(&hinting->text, "SCHEMA");
    } else {
        bytes_add(&hinting->text, path.data, path.length);
    }
}

/* Adds how to make a copy: from a schema in the XML syntax, by way of the compact one. */
static void add_command(struct hinting *hinting) {
    const struct schema_hint_file *main = hinting->grammars.tree.files[0].given;
    const char *profile = hinting->is_of_profile ? "rncv-profile " : "rncv-profile --datatypes xml-schema ";
    if (main->origins != NULL && main->origins->count > 0) {
        bytes_add_text(&hinting->text, "rng2rnc ");
        add_main(hinting);
        bytes_format(&hinting->text, " -o RNC writes it in the compact syntax, of which %s-o DIR", profile);
    } else {
        bytes_add_text(&hinting->text, profile);
        add_main(hinting);
        bytes_add_text(&hinting->text, " -o DIR");
    }
    bytes_add_text(&hinting->text, " writes a copy");
}

/* Says that the smaller set has it not, and, if that is so, that the larger one has it. */
static void add_unserved(struct hinting *hinting, bool is_in_larger) {
    static const char larger[] = " is of the datatypes xml-schema, and not of those of the profile: ";
    bytes_add_text(&hinting->text, is_in_larger ? larger : " is not served: ");
}

/* Says that a datatype is not served, and what a copy has in its place. */
static void hint_unserved(struct hinting *hinting, uint32_t node, const struct nearest *nearest, bool is_in_larger) {
    bool is_value = hint_node(hinting, node)->kind == NODE_VALUE;
    add_unserved(hinting, is_in_larger);
    add_command(hinting);
    bytes_format(&hinting->text, " with %s there, ", nearest->with);
    if (is_value) {
        bytes_add_text(&hinting->text, "which compares the value as that does");
    } else {
        bytes_format(&hinting->text, "which accepts %s", nearest->accepts);
    }
}

/* Says that the datatype has not the parameter. If the larger set has it, and this is the smaller one, what a copy has in its place. */
static void hint_facet(struct hinting *hinting, struct span written, const struct type *type, struct span name) {
    if (type == NULL || !hinting->is_of_profile || !type_takes(type, name)) {
        add_part(hinting, written);
        bytes_add_text(&hinting->text, " takes no parameter ");
        add_part(hinting, name);
        return;
    }
    bytes_add_text(&hinting->text, "the parameter ");
    add_part(hinting, name);
    bytes_add_text(&hinting->text, " of ");
    add_part(hinting, written);
    add_unserved(hinting, true);
    add_command(hinting);
    bytes_add_text(&hinting->text, span_is(name, "pattern") ? " without it, which also accepts what the pattern does not match"
                                                            : " with others there, which accepts the same");
}

/* Whether the datatype has the parameter in the set. `type` is NULL for one that takes none. */
static bool takes(const struct hinting *hinting, const struct type *type, struct span name) {
    static const char *const larger[] = {"length", "minExclusive", "maxExclusive", "totalDigits", "fractionDigits", "pattern"};
    bool is_taken = type != NULL && type_takes(type, name);
    for (size_t at = 0; at < sizeof larger / sizeof *larger; at++) {
        is_taken &= !hinting->is_of_profile || !span_is(name, larger[at]);
    }
    return is_taken;
}

static uint32_t set_of(const struct hinting *hinting) {
    return hinting->is_of_profile ? RNCV_DATATYPES_PROFILE : RNCV_DATATYPES_XML_SCHEMA;
}

/* Adds a parameter to a question. */
static void ask_about(struct hinting *hinting, struct bytes *question, uint32_t param) {
    const struct node *here = hint_node(hinting, param);
    asked_add_param(question, here->text, here->other);
}

/* As many steps as a question of so many bytes takes the time of. */
static uint64_t asking_steps(size_t length) {
    return 24 + length / 16;
}

/* Ends a question. If there were too many, everything is taken. */
static bool is_taken(struct hinting *hinting, struct bytes *question) {
    bool is_asked = tree_step(&hinting->grammars.tree, asking_steps(question->length));
    return asked_is_taken(question, set_of(hinting)) || !is_asked;
}

/* Whether the set has the datatype with all of its parameters. */
static bool are_taken(struct hinting *hinting, const struct type *type, uint32_t first) {
    struct bytes question = NO_BYTES;
    bool are_known = true;
    asked_begin(&question, type->name);
    for (uint32_t param = first; param != 0 && are_known; param = hint_node(hinting, param)->next) {
        are_known = takes(hinting, type, hint_node(hinting, param)->text);
        ask_about(hinting, &question, param);
    }
    if (!are_known) {
        bytes_free(&question);
    }
    return are_known && is_taken(hinting, &question);
}

/* Whether the values of the datatype are lists, which have one item at least. */
static bool is_of_items(const struct type *type) {
    return strcmp(type->name, "NMTOKENS") == 0 || strcmp(type->name, "IDREFS") == 0 || strcmp(type->name, "ENTITIES") == 0;
}

/* Whether a text is an integer above the greatest that a length or a number of digits may be. */
static bool is_above_counts(struct span written) {
    static const char greatest[] = "9223372036854775807";
    const size_t most = sizeof greatest - 1;
    struct span text = without_blanks(written);
    bool has_sign = text.length > 0 && text.data[0] == '+';
    struct span digits = {text.data + has_sign, text.length - has_sign};
    while (digits.length > 0 && digits.data[0] == '0') {
        digits = (struct span){digits.data + 1, digits.length - 1};
    }
    for (size_t at = 0; at < digits.length; at++) {
        if (digits.data[at] < '0' || digits.data[at] > '9') {
            return false;
        }
    }
    return digits.length > most || (digits.length == most && memcmp(digits.data, greatest, most) > 0);
}

/* Says which numbers a length or a number of digits may be. */
static void add_counts(struct hinting *hinting, const struct type *type, struct span name, struct span text) {
    if (is_above_counts(text)) {
        bytes_add_text(&hinting->text, "' is above 9,223,372,036,854,775,807, the greatest number that is served there");
    } else {
        bool is_from_1 = span_is(name, "totalDigits") || is_of_items(type);
        bytes_add_text(&hinting->text, is_from_1 ? "' is no number from 1 on" : "' is no number from 0 on");
    }
}

/* Says which texts the parameter has. */
static void add_wanted(struct hinting *hinting, struct span written, const struct type *type, const struct node *param) {
    struct span name = param->text;
    if (span_is(name, "pattern")) {
        bytes_add_text(&hinting->text, "' is no regular expression of XML Schema, or its size, with its counts written out, is above 4,096");
    } else if (type->kind == TYPE_INTEGER && span_is(name, "fractionDigits")) {
        bytes_add_text(&hinting->text, "' is not 0, which it is for integers");
    } else if (hinting->is_of_profile) {
        bytes_add_text(&hinting->text, is_bound(name) ? "' is no integer of at most 38 digits" : "' is not 1 to 9 digits");
    } else if (is_bound(name)) {
        bytes_add_text(&hinting->text, "' is no value of ");
        add_part(hinting, written);
    } else {
        add_counts(hinting, type, name, param->other);
    }
}

/* Adds a parameter and its text. */
static void add_parameter(struct hinting *hinting, const struct node *param) {
    bytes_add_text(&hinting->text, "the ");
    add_part(hinting, param->text);
    bytes_add_text(&hinting->text, " '");
    add_part(hinting, param->other);
}

/* Says why a parameter by itself does not fit its type, if it does not. */
static void judge_param(struct hinting *hinting, struct span written, const struct type *type, uint32_t param) {
    const struct node *here = hint_node(hinting, param);
    if (!takes(hinting, type, here->text)) {
        if (hint_begins(hinting, param)) {
            hint_facet(hinting, written, type, here->text);
        }
        return;
    }
    struct bytes question = NO_BYTES;
    asked_begin(&question, type->name);
    ask_about(hinting, &question, param);
    if (!is_taken(hinting, &question) && hint_begins(hinting, param)) {
        add_parameter(hinting, here);
        add_wanted(hinting, written, type, here);
    }
}

/* Says what is wrong with two parameters, each of which is good. `one` is named first. */
static void hint_pair(struct hinting *hinting, const struct node *one, const struct node *other, bool are_exclusive) {
    if (span_is(one->text, "fractionDigits")) {
        add_parameter(hinting, one);
        bytes_add_text(&hinting->text, "' is above ");
        add_parameter(hinting, other);
        bytes_add_text(&hinting->text, "'");
        return;
    }
    bytes_add_text(&hinting->text, "the parameters ");
    add_part(hinting, one->text);
    bytes_add_text(&hinting->text, " and ");
    add_part(hinting, other->text);
    bytes_add_text(&hinting->text, are_exclusive ? " exclude each other" : " leave no value between them");
}

/* Says that two parameters of the larger set exclude each other, or that the lower one is above the upper one, if that is so. */
static void judge_pair(struct hinting *hinting, const struct type *type, uint32_t before, uint32_t param) {
    static const struct {
        const char *one;
        const char *other;
        bool are_exclusive;
    } pairs[] = {{"length", "minLength", true}, {"length", "maxLength", true}, {"minLength", "maxLength", false}, {"minInclusive", "minExclusive", true},
                 {"maxInclusive", "maxExclusive", true}, {"minInclusive", "maxInclusive", false}, {"minInclusive", "maxExclusive", false},
                 {"minExclusive", "maxInclusive", false}, {"minExclusive", "maxExclusive", false}, {"fractionDigits", "totalDigits", false}};
    const struct node *first = hint_node(hinting, before);
    const struct node *second = hint_node(hinting, param);
    for (size_t at = 0; at < sizeof pairs / sizeof *pairs; at++) {
        bool is_turned = span_is(second->text, pairs[at].one) && span_is(first->text, pairs[at].other);
        const struct node *one = is_turned ? second : first;
        const struct node *other = is_turned ? first : second;
        if (!span_is(one->text, pairs[at].one) || !span_is(other->text, pairs[at].other)) {
            continue;
        }
        struct bytes question = NO_BYTES;
        asked_begin(&question, type->name);
        ask_about(hinting, &question, before);
        ask_about(hinting, &question, param);
        if (!is_taken(hinting, &question) && hint_begins(hinting, param)) {
            hint_pair(hinting, one, other, pairs[at].are_exclusive);
        }
        return;
    }
}

/* Looks at the parameters, if the set has not the datatype with them. Each but `pattern` may be there once; there are ten. `type` is NULL for a datatype that
 * takes none. */
static void judge_params(struct hinting *hinting, struct span written, const struct type *type, uint32_t first) {
    if (first == 0 || (type != NULL && are_taken(hinting, type, first))) {
        return;
    }
    for (uint32_t param = first; param != 0 && hinting->node == 0 && tree_step(&hinting->grammars.tree, 1); param = hint_node(hinting, param)->next) {
        struct span name = hint_node(hinting, param)->text;
        judge_param(hinting, written, type, param);
        if (!hinting->is_of_profile && span_is(name, "pattern")) {
            continue;
        }
        for (uint32_t before = first; before != param && hinting->node == 0; before = hint_node(hinting, before)->next) {
            if (span_equal(hint_node(hinting, before)->text, name) && hint_begins(hinting, param)) {
                bytes_add_text(&hinting->text, "the parameter ");
                add_part(hinting, name);
                bytes_add_text(&hinting->text, " is there twice");
            } else if (!hinting->is_of_profile) {
                judge_pair(hinting, type, before, param);
            }
        }
    }
}

/* The uri of a type's library. */
static struct span library_of(struct hinting *hinting, struct spot spot, struct span prefix) {
    struct key key = {KEY_LIBRARY, hint_node(hinting, spot.node)->file, 0, 0, prefix};
    uint32_t uri = prefix.length == 0 ? 0 : tree_find(&hinting->grammars.tree, &key);
    if (uri == NONE || uri >= hinting->grammars.tree.uri_count) {
        return span_is(prefix, "xsd") ? (struct span){xsd_uri, sizeof xsd_uri - 1} : (struct span){NULL, 0};
    }
    return hinting->grammars.tree.uris[uri];
}

/* Says what a copy has in place of a datatype of a library that is not known. A value is not brought over. */
static void hint_library(struct hinting *hinting, uint32_t node) {
    if (hint_node(hinting, node)->kind == NODE_DATA) {
        bytes_add_text(&hinting->text, ": ");
        add_command(hinting);
        bytes_add_text(&hinting->text, " with xsd:string there, which accepts any text");
    }
}

/* Says that a datatype of XML Schema, or of IDs, is not served. */
static void hint_type(struct hinting *hinting, uint32_t node, struct span library, struct span type) {
    static const struct nearest same[] = {{"ID", "xsd:ID", "the same"}, {"IDREF", "xsd:IDREF", "the same"}, {"IDREFS", "xsd:IDREFS", "the same"}};
    bool is_xsd = span_is(library, xsd_uri);
    const struct nearest *nearest = is_xsd ? nearest_of(type) : NULL;
    for (size_t at = 0; at < sizeof same / sizeof *same && span_is(library, compatibility_uri); at++) {
        if (span_is(type, same[at].type)) {
            nearest = hinting->is_of_profile ? nearest_of(type) : &same[at];
        }
    }
    add_part(hinting, hint_node(hinting, node)->text);
    if (nearest != NULL) {
        hint_unserved(hinting, node, nearest, is_xsd);
    } else if (is_xsd) {
        bytes_add_text(&hinting->text, " is no datatype of XML Schema");
    } else if (library.length == 0) {
        bytes_add_text(&hinting->text, " is not served; of the library with the empty uri string and token are");
    } else {
        bytes_add_text(&hinting->text, " is of the library ");
        add_part(hinting, library);
        bytes_add_text(&hinting->text, ", which is not served");
        hint_library(hinting, node);
    }
}

/* The datatype, if it is one of the set. `string` and `token` of the library with the empty uri are as those of XML Schema, without parameters. */
static const struct type *known_type(const struct hinting *hinting, struct span library, struct span name) {
    bool is_xsd = span_is(library, xsd_uri);
    const struct type *type = is_xsd || span_is(name, "string") || span_is(name, "token") ? type_named(name) : NULL;
    bool is_library = is_xsd || (library.data != NULL && library.length == 0);
    return type != NULL && is_library && (!hinting->is_of_profile || type_is_of_profile(type)) ? type : NULL;
}

/* Whether each text is a value of the datatype. The library need not be asked. */
static bool is_of_any_text(const struct type *type) {
    static const char *const names[] = {"string", "normalizedString", "token", "anyURI"};
    bool is_it = false;
    for (size_t at = 0; at < sizeof names / sizeof *names; at++) {
        is_it |= strcmp(type->name, names[at]) == 0;
    }
    return is_it;
}

/* Looks at a value of the type. */
static void judge_value(struct hinting *hinting, uint32_t at, const struct type *type) {
    const struct node *node = hint_node(hinting, at);
    if (type->kind == TYPE_CONTEXT) {
        if (hint_begins(hinting, at)) {
            bytes_add_text(&hinting->text, "a value of ");
            add_part(hinting, node->text);
            bytes_add_text(&hinting->text, " is not served, since it depends on the prefixes of the document");
        }
        return;
    }
    if (is_of_any_text(type) || !tree_step(&hinting->grammars.tree, asking_steps(node->other.length)) ||
        asked_allows(type->name, node->other, set_of(hinting)) || !hint_begins(hinting, at)) {
        return;
    }
    add_part(hinting, node->text);
    bytes_add_text(&hinting->text, " does not allow the value '");
    add_part(hinting, node->other);
    bytes_add_text(&hinting->text, "'");
}

void judge_type(struct hinting *hinting, struct spot spot) {
    const struct node *node = hint_node(hinting, spot.node);
    if ((node->kind != NODE_DATA && node->kind != NODE_VALUE) || node->text.length == 0) {
        return;
    }
    const char *colon = memchr(node->text.data, ':', node->text.length);
    struct span prefix = {node->text.data, colon == NULL ? 0 : (size_t)(colon - node->text.data)};
    struct span name = colon == NULL ? node->text : (struct span){colon + 1, node->text.length - prefix.length - 1};
    struct span library = library_of(hinting, spot, prefix);
    const struct type *type = known_type(hinting, library, name);
    if (type == NULL) {
        if (library.data != NULL && hint_begins(hinting, spot.node)) {
            hint_type(hinting, spot.node, library, name);
        }
    } else if (node->kind == NODE_DATA) {
        /* the types of the library with the empty uri take no parameters */
        judge_params(hinting, node->text, library.length == 0 ? NULL : type, node->class);
    } else {
        judge_value(hinting, spot.node, type);
    }
}
