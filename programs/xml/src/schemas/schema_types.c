#include "schema_types.h"

#include "xml_names.h"

#include <string.h>

static const struct type types[] = {
    {"string", TYPE_LENGTH}, {"normalizedString", TYPE_LENGTH}, {"token", TYPE_LENGTH}, {"language", TYPE_LENGTH}, {"Name", TYPE_LENGTH},
    {"NCName", TYPE_LENGTH}, {"NMTOKEN", TYPE_LENGTH}, {"NMTOKENS", TYPE_LENGTH}, {"ID", TYPE_LENGTH}, {"IDREF", TYPE_LENGTH}, {"IDREFS", TYPE_LENGTH},
    {"ENTITY", TYPE_LENGTH}, {"ENTITIES", TYPE_LENGTH}, {"anyURI", TYPE_LENGTH}, {"hexBinary", TYPE_LENGTH}, {"base64Binary", TYPE_LENGTH},
    {"boolean", TYPE_BARE}, {"QName", TYPE_CONTEXT}, {"NOTATION", TYPE_CONTEXT},
    {"integer", TYPE_INTEGER}, {"nonPositiveInteger", TYPE_INTEGER}, {"negativeInteger", TYPE_INTEGER}, {"long", TYPE_INTEGER}, {"int", TYPE_INTEGER},
    {"short", TYPE_INTEGER}, {"byte", TYPE_INTEGER}, {"nonNegativeInteger", TYPE_INTEGER}, {"unsignedLong", TYPE_INTEGER}, {"unsignedInt", TYPE_INTEGER},
    {"unsignedShort", TYPE_INTEGER}, {"unsignedByte", TYPE_INTEGER}, {"positiveInteger", TYPE_INTEGER},
    {"decimal", TYPE_DECIMAL}, {"float", TYPE_ORDERED}, {"double", TYPE_ORDERED}, {"duration", TYPE_ORDERED}, {"dateTime", TYPE_ORDERED},
    {"time", TYPE_ORDERED}, {"date", TYPE_ORDERED}, {"gYearMonth", TYPE_ORDERED}, {"gYear", TYPE_ORDERED}, {"gMonthDay", TYPE_ORDERED},
    {"gDay", TYPE_ORDERED}, {"gMonth", TYPE_ORDERED}};

const struct type *type_named(struct span name) {
    for (size_t at = 0; at < sizeof types / sizeof *types; at++) {
        if (span_is(name, types[at].name)) {
            return &types[at];
        }
    }
    return NULL;
}

static bool is_one_of(struct span text, const char *const *words, size_t count) {
    for (size_t at = 0; at < count; at++) {
        if (span_is(text, words[at])) {
            return true;
        }
    }
    return false;
}

bool type_is_of_profile(const struct type *type) {
    static const char *const names[] = {"string", "token", "NCName", "NMTOKEN", "boolean", "integer"};
    return is_one_of((struct span){type->name, strlen(type->name)}, names, sizeof names / sizeof *names);
}

bool is_bound(struct span parameter) {
    static const char *const bounds[] = {"minInclusive", "maxInclusive", "minExclusive", "maxExclusive"};
    return is_one_of(parameter, bounds, sizeof bounds / sizeof *bounds);
}

bool type_takes(const struct type *type, struct span parameter) {
    static const char *const lengths[] = {"length", "minLength", "maxLength"};
    static const char *const digits[] = {"totalDigits", "fractionDigits"};
    if (span_is(parameter, "pattern")) {
        return true;
    }
    switch (type->kind) {
    case TYPE_LENGTH:
        return is_one_of(parameter, lengths, sizeof lengths / sizeof *lengths);
    case TYPE_ORDERED:
        return is_bound(parameter);
    case TYPE_INTEGER:
    case TYPE_DECIMAL:
        return is_bound(parameter) || is_one_of(parameter, digits, sizeof digits / sizeof *digits);
    default:
        return false;
    }
}
