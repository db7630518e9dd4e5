#include "rng_grammar.h"

#include "rng_uri.h"
#include "xml_names.h"

/* What an element may be for its parent. */
enum role {
    ROLE_PATTERN = 1,
    ROLE_CLASS = 2,
    ROLE_COMPONENT = 4,      /* of a grammar */
    ROLE_OVERRIDE = 8,       /* of an include */
    ROLE_PARAM = 16,
    ROLE_DATA_EXCEPT = 32,
    ROLE_CLASS_EXCEPT = 64
};

/* What children an element has: the role of the first one, that of the others, and how many there are. */
struct children {
    unsigned first;
    unsigned others;
    uint32_t least;
    uint32_t most;
    const char *words;
};

enum content { HAS_NONE, HAS_TEXT, HAS_PATTERNS, HAS_PATTERN, HAS_NAMED, HAS_NAMED_OPTIONAL, HAS_DATA, HAS_COMPONENTS, HAS_OVERRIDES, HAS_CLASSES, HAS_EXCEPT };

static const struct children contents[] = {
    [HAS_NONE] = {0, 0, 0, 0, "has no children"},
    [HAS_TEXT] = {0, 0, 0, 0, "has text alone"},
    [HAS_PATTERNS] = {ROLE_PATTERN, ROLE_PATTERN, 1, UINT32_MAX, "has one pattern or more"},
    [HAS_PATTERN] = {ROLE_PATTERN, ROLE_PATTERN, 1, 1, "has one pattern"},
    [HAS_NAMED] = {ROLE_CLASS, ROLE_PATTERN, 2, UINT32_MAX, "without the attribute name has a name class, and then one pattern or more"},
    [HAS_NAMED_OPTIONAL] = {ROLE_CLASS, ROLE_PATTERN, 1, 2, "without the attribute name has a name class, and then at most one pattern"},
    [HAS_DATA] = {ROLE_PARAM | ROLE_DATA_EXCEPT, ROLE_PARAM | ROLE_DATA_EXCEPT, 0, UINT32_MAX, "has params, and then at most one except"},
    [HAS_COMPONENTS] = {ROLE_COMPONENT, ROLE_COMPONENT, 0, UINT32_MAX, "has start, define, div and include"},
    [HAS_OVERRIDES] = {ROLE_OVERRIDE, ROLE_OVERRIDE, 0, UINT32_MAX, "has start, define and div"},
    [HAS_CLASSES] = {ROLE_CLASS, ROLE_CLASS, 1, UINT32_MAX, "has one name class or more"},
    [HAS_EXCEPT] = {ROLE_CLASS_EXCEPT, ROLE_CLASS_EXCEPT, 0, 1, "has at most one except"},
};

/* The body of an attribute that has a name in its tag. */
static const struct children optional_pattern = {ROLE_PATTERN, ROLE_PATTERN, 0, 1, "has at most one pattern"};

#define BIT(attribute) (1u << (attribute))
enum { ANY_ELEMENT = BIT(RNG_AT_NS) | BIT(RNG_AT_LIBRARY) | BIT(RNG_AT_BASE) };

/* An element in a role: its attributes, those among them that it has to have, and its content. */
struct rule {
    enum rng_kind kind;
    unsigned roles;
    unsigned attributes;
    unsigned needed;
    enum content content;
};

static const struct rule rules[] = {
    {RNG_ELEMENT, ROLE_PATTERN, BIT(RNG_AT_NAME), 0, HAS_NAMED},
    {RNG_ATTRIBUTE, ROLE_PATTERN, BIT(RNG_AT_NAME), 0, HAS_NAMED_OPTIONAL},
    {RNG_GROUP, ROLE_PATTERN, 0, 0, HAS_PATTERNS},
    {RNG_INTERLEAVE, ROLE_PATTERN, 0, 0, HAS_PATTERNS},
    {RNG_CHOICE, ROLE_PATTERN, 0, 0, HAS_PATTERNS},
    {RNG_OPTIONAL, ROLE_PATTERN, 0, 0, HAS_PATTERNS},
    {RNG_ZERO_OR_MORE, ROLE_PATTERN, 0, 0, HAS_PATTERNS},
    {RNG_ONE_OR_MORE, ROLE_PATTERN, 0, 0, HAS_PATTERNS},
    {RNG_LIST, ROLE_PATTERN, 0, 0, HAS_PATTERNS},
    {RNG_MIXED, ROLE_PATTERN, 0, 0, HAS_PATTERNS},
    {RNG_REF, ROLE_PATTERN, BIT(RNG_AT_NAME), BIT(RNG_AT_NAME), HAS_NONE},
    {RNG_PARENT_REF, ROLE_PATTERN, BIT(RNG_AT_NAME), BIT(RNG_AT_NAME), HAS_NONE},
    {RNG_EMPTY, ROLE_PATTERN, 0, 0, HAS_NONE},
    {RNG_TEXT, ROLE_PATTERN, 0, 0, HAS_NONE},
    {RNG_NOT_ALLOWED, ROLE_PATTERN, 0, 0, HAS_NONE},
    {RNG_VALUE, ROLE_PATTERN, BIT(RNG_AT_TYPE), 0, HAS_TEXT},
    {RNG_DATA, ROLE_PATTERN, BIT(RNG_AT_TYPE), BIT(RNG_AT_TYPE), HAS_DATA},
    {RNG_EXTERNAL_REF, ROLE_PATTERN, BIT(RNG_AT_HREF), BIT(RNG_AT_HREF), HAS_NONE},
    {RNG_GRAMMAR, ROLE_PATTERN, 0, 0, HAS_COMPONENTS},
    {RNG_PARAM, ROLE_PARAM, BIT(RNG_AT_NAME), BIT(RNG_AT_NAME), HAS_TEXT},
    {RNG_EXCEPT, ROLE_DATA_EXCEPT, 0, 0, HAS_PATTERNS},
    {RNG_START, ROLE_COMPONENT | ROLE_OVERRIDE, BIT(RNG_AT_COMBINE), 0, HAS_PATTERN},
    {RNG_DEFINE, ROLE_COMPONENT | ROLE_OVERRIDE, BIT(RNG_AT_NAME) | BIT(RNG_AT_COMBINE), BIT(RNG_AT_NAME), HAS_PATTERNS},
    {RNG_DIV, ROLE_COMPONENT, 0, 0, HAS_COMPONENTS},
    {RNG_DIV, ROLE_OVERRIDE, 0, 0, HAS_OVERRIDES},
    {RNG_INCLUDE, ROLE_COMPONENT, BIT(RNG_AT_HREF), BIT(RNG_AT_HREF), HAS_OVERRIDES},
    {RNG_NAME, ROLE_CLASS, 0, 0, HAS_TEXT},
    {RNG_ANY_NAME, ROLE_CLASS, 0, 0, HAS_EXCEPT},
    {RNG_NS_NAME, ROLE_CLASS, 0, 0, HAS_EXCEPT},
    {RNG_CHOICE, ROLE_CLASS, 0, 0, HAS_CLASSES},
    {RNG_EXCEPT, ROLE_CLASS_EXCEPT, 0, 0, HAS_CLASSES},
};

struct checking {
    const struct rng_tree *tree;
    struct fault *fault;
};

static bool check(struct checking *checking, uint32_t index, unsigned roles);

/* Notes what is wrong with an element: its name and words, and perhaps a name that the words quote. */
static bool is_wrong(struct checking *checking, const struct rng_node *node, const char *words, struct span quoted) {
    struct bytes line = NO_BYTES;
    bytes_format(&line, "<%.*s> %s", (int)node->name.length, node->name.data, words);
    if (quoted.data != NULL) {
        bytes_format(&line, " '%.*s'", (int)quoted.length, quoted.data);
    }
    const char *text = bytes_text(&line);
    fault_set(checking->fault, line.failed ? FAULT_MEMORY : FAULT_MALFORMED, node->place, "%s", line.failed ? "out of memory" : text);
    bytes_free(&line);
    return false;
}

static struct span quoted(const char *text) {
    return (struct span){text, strlen(text)};
}

static const struct rule *rule_of(enum rng_kind kind, unsigned roles) {
    for (size_t at = 0; at < sizeof rules / sizeof *rules; at++) {
        if (rules[at].kind == kind && (rules[at].roles & roles) != 0) {
            return &rules[at];
        }
    }
    return NULL;
}

/* Whether the element has its attributes and no others. */
static bool check_attributes(struct checking *checking, const struct rng_node *node, const struct rule *rule) {
    if (node->wrong.data != NULL) {
        return is_wrong(checking, node, "has no attribute", node->wrong);
    }
    for (int at = RNG_AT_NAME; at < RNG_ATTRIBUTES; at++) {
        bool is_there = rng_has(node, (enum rng_attribute)at);
        const char *name = rng_attribute_name((enum rng_attribute)at);
        if (is_there && ((rule->attributes | ANY_ELEMENT) & BIT(at)) == 0) {
            return is_wrong(checking, node, "has no attribute", quoted(name));
        }
        if (!is_there && (rule->needed & BIT(at)) != 0) {
            return is_wrong(checking, node, "needs the attribute", quoted(name));
        }
    }
    return true;
}

/* Whether the text is a name with a prefix that is declared, or without one (4.10). */
static bool check_qname(struct checking *checking, const struct rng_node *node, struct span name) {
    size_t colon;
    if (!is_qname(name, &colon)) {
        return is_wrong(checking, node, "has a name that is no name of XML, with a prefix or without one:", name);
    }
    struct span prefix = {name.data, colon};
    if (colon > 0 && rng_namespace(checking->tree, node->scope, prefix).data == NULL) {
        return is_wrong(checking, node, "has a name whose prefix is not declared:", name);
    }
    return true;
}

/* Whether the values of the names are names. */
static bool check_names(struct checking *checking, const struct rng_node *node) {
    struct span name = rng_trimmed(node, RNG_AT_NAME);
    struct span type = rng_trimmed(node, RNG_AT_TYPE);
    struct span combine = rng_trimmed(node, RNG_AT_COMBINE);
    bool has_qname = node->kind == RNG_ELEMENT || node->kind == RNG_ATTRIBUTE;
    if (rng_has(node, RNG_AT_NAME) && !has_qname && !is_ncname(name)) {
        return is_wrong(checking, node, "has a name that is no name of XML without a colon:", name);
    }
    if (rng_has(node, RNG_AT_TYPE) && !is_ncname(type)) {
        return is_wrong(checking, node, "has a type that is no name of XML without a colon:", type);
    }
    if (rng_has(node, RNG_AT_COMBINE) && !span_is(combine, "choice") && !span_is(combine, "interleave")) {
        return is_wrong(checking, node, "has a combine that is not choice and not interleave:", combine);
    }
    if (node->kind == RNG_NAME || rng_is_qname_value(node)) {
        return check_qname(checking, node, without_blanks(node->text));
    }
    return !has_qname || !rng_has(node, RNG_AT_NAME) || check_qname(checking, node, name);
}

/* Whether the values of the URIs are URIs (4.3, 4.5). */
static bool check_uris(struct checking *checking, const struct rng_node *node) {
    struct span library = node->values[RNG_AT_LIBRARY];
    struct span href = node->values[RNG_AT_HREF];
    if (library.length > 0 && (!uri_is_sound(library) || uri_scheme(library).length == 0)) {
        return is_wrong(checking, node, "has a datatypeLibrary that is no absolute URI without a fragment:", library);
    }
    if (rng_has(node, RNG_AT_HREF) && (href.length == 0 || !uri_is_sound(href))) {
        return is_wrong(checking, node, "has an href that is no URI of another file without a fragment:", href);
    }
    return true;
}

bool rng_is_qname_value(const struct rng_node *node) {
    struct span type = rng_trimmed(node, RNG_AT_TYPE);
    bool is_qname = span_is(type, "QName") || span_is(type, "NOTATION");
    return node->kind == RNG_VALUE && is_qname && span_is(node->library, "http://www.w3.org/2001/XMLSchema-datatypes");
}

bool rng_has_class(const struct rng_node *node) {
    return (node->kind == RNG_ELEMENT || node->kind == RNG_ATTRIBUTE) && !rng_has(node, RNG_AT_NAME);
}

/* What children the element has to have. */
static const struct children *children_of(const struct rng_node *node, enum content content) {
    bool is_named = (content == HAS_NAMED || content == HAS_NAMED_OPTIONAL) && rng_has(node, RNG_AT_NAME);
    return !is_named ? &contents[content] : content == HAS_NAMED ? &contents[HAS_PATTERNS] : &optional_pattern;
}

/* Whether the element has the right children, and each is sound. */
static bool check_children(struct checking *checking, const struct rng_node *node, enum content content) {
    const struct children *children = children_of(node, content);
    uint32_t count = 0;
    enum rng_kind before = RNG_UNKNOWN;
    for (uint32_t at = node->first; at != 0; at = checking->tree->nodes[at].next, count++) {
        const struct rng_node *child = &checking->tree->nodes[at];
        unsigned roles = count == 0 ? children->first : children->others;
        bool is_late = content == HAS_DATA && before == RNG_EXCEPT;
        if (count == children->most || is_late || rule_of(child->kind, roles) == NULL) {
            const char *unknown = child->kind == RNG_UNKNOWN ? "is no element of RELAX NG" : "is not allowed here:";
            struct bytes words = NO_BYTES;
            bytes_format(&words, "%s <%.*s> %s", unknown, (int)node->name.length, node->name.data, children->words);
            is_wrong(checking, child, child->kind == RNG_UNKNOWN ? unknown : bytes_text(&words), (struct span){NULL, 0});
            bytes_free(&words);
            return false;
        }
        if (!check(checking, at, roles)) {
            return false;
        }
        before = child->kind;
    }
    return count >= children->least || is_wrong(checking, node, children->words, (struct span){NULL, 0});
}

/* Whether the element has text only where it may. */
static bool check_text(struct checking *checking, const struct rng_node *node, enum content content) {
    if (content == HAS_TEXT) {
        return !node->has_foreign || is_wrong(checking, node, "has text alone, and no elements of other namespaces", (struct span){NULL, 0});
    }
    if (node->text_place.line != 0) {
        fault_set(checking->fault, FAULT_MALFORMED, node->text_place, "text is not allowed in <%.*s>", (int)node->name.length, node->name.data);
        return false;
    }
    return true;
}

/* Whether the element is sound in one of these roles. Elements are at most 512 deep. */
static bool check(struct checking *checking, uint32_t index, unsigned roles) {
    const struct rng_node *node = &checking->tree->nodes[index];
    const struct rule *rule = rule_of(node->kind, roles);
    return check_attributes(checking, node, rule) && check_names(checking, node) && check_uris(checking, node) &&
           check_text(checking, node, rule->content) && check_children(checking, node, rule->content);
}

bool rng_is_schema(const struct rng_tree *tree, struct fault *fault) {
    struct checking checking = {tree, fault};
    const struct rng_node *root = &tree->nodes[1];
    if (rule_of(root->kind, ROLE_PATTERN) == NULL) {
        return is_wrong(&checking, root, "is no pattern: a schema is one pattern or a grammar", (struct span){NULL, 0});
    }
    return check(&checking, 1, ROLE_PATTERN);
}
