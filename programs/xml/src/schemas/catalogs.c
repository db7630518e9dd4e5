#include "catalogs.h"

#include "paths.h"
#include "program.h"
#include "rng_tree.h"
#include "rng_uri.h"
#include "xml_names.h"

#include <stdlib.h>

enum { MOST_DEPTH = 16, MOST_CATALOGS = 100 }; /* catalogs that name others, and catalogs that are read for one URI */

enum kind { CATALOG = 1, GROUP, URI, REWRITE_URI, DELEGATE_URI, NEXT_CATALOG };
enum attribute { AT_NAME, AT_URI, AT_START, AT_PREFIX, AT_CATALOG };

static const char *const elements[] = {"catalog", "group", "uri", "rewriteURI", "delegateURI", "nextCatalog", NULL};
static const char *const attributes[] = {"name", "uri", "uriStartString", "rewritePrefix", "catalog", NULL};
static const struct vocabulary vocabulary = {"urn:oasis:names:tc:entity:xmlns:xml:catalog", "XML Catalogs", elements, attributes};

struct search {
    struct span uri;
    struct bytes *path;
    struct fault *fault;
    size_t left; /* catalogs that may be read still */
};

static bool search_in(struct search *search, const char *path, int depth);

static bool add_catalog(struct catalogs *catalogs, const struct bytes *path) {
    struct bytes *longer = realloc(catalogs->paths, (catalogs->count + 1) * sizeof *longer);
    if (longer == NULL) {
        return false;
    }
    catalogs->paths = longer;
    longer[catalogs->count] = (struct bytes)NO_BYTES;
    bytes_add(&longer[catalogs->count], path->data, path->length);
    bytes_text(&longer[catalogs->count]);
    return !longer[catalogs->count++].failed;
}

/* Adds the path that a URI or a path means, beside a file; nothing if it would have to be fetched. */
static void add_local(struct bytes *path, struct bytes *words, const char *beside_path) {
    struct ways ways;
    bool is_good = ways_of(&ways, words, beside_path);
    for (size_t at = 0; at < ways.count && path->length == 0; at++) {
        bool is_last = at + 1 == ways.count;
        if (is_last || is_file(bytes_text(&ways.list[at]))) {
            bytes_add(path, ways.list[at].data, ways.list[at].length);
        }
        path->failed |= ways.list[at].failed;
    }
    path->failed |= !is_good || words->failed;
    ways_free(&ways);
}

/* Adds the catalog of a word in the environment. */
static bool add_word(struct catalogs *catalogs, const char *word, size_t length) {
    struct bytes words = NO_BYTES;
    struct bytes path = NO_BYTES;
    bytes_add(&words, word, length);
    add_local(&path, &words, "");
    bool is_good = !path.failed && (path.length == 0 || add_catalog(catalogs, &path));
    bytes_free(&words);
    bytes_free(&path);
    return is_good;
}

bool catalogs_open(struct catalogs *catalogs, const char *const *given, size_t count, const char *environment) {
    const char *words = environment == NULL ? "/etc/xml/catalog" : environment;
    bool is_good = true;
    *catalogs = (struct catalogs){NULL, 0, 0};
    for (size_t at = 0; at < count && is_good; at++) {
        struct bytes path = NO_BYTES;
        bytes_add_text(&path, given[at]);
        is_good = !path.failed && add_catalog(catalogs, &path);
        bytes_free(&path);
    }
    catalogs->given = catalogs->count;
    while (is_good && *words != '\0') {
        size_t length = strcspn(words, " \t\r\n");
        is_good = length == 0 || add_word(catalogs, words, length);
        words += length + (words[length] != '\0');
    }
    return is_good;
}

void catalogs_close(struct catalogs *catalogs) {
    for (size_t at = 0; at < catalogs->count; at++) {
        bytes_free(&catalogs->paths[at]);
    }
    free(catalogs->paths);
    *catalogs = (struct catalogs){NULL, 0, 0};
}

/* The attribute of an entry; no data: it has none. */
static struct span value_of(const struct rng_node *node, enum attribute attribute) {
    return node->values[attribute];
}

/* Whether the entry is of this kind and for URIs that begin so. */
static bool is_start(const struct search *search, const struct rng_node *node, enum kind kind) {
    struct span start = value_of(node, AT_START);
    return (enum kind)node->kind == kind && start.length > 0 && start.length <= search->uri.length && memcmp(start.data, search->uri.data, start.length) == 0;
}

/* The entry of the kind with the longest start of the URI that is shorter than a length; 0: there is none. */
static uint32_t longest(const struct search *search, const struct rng_tree *tree, enum kind kind, size_t shorter_than) {
    uint32_t found = 0;
    for (uint32_t at = 1; at < tree->node_count; at++) {
        size_t length = value_of(&tree->nodes[at], AT_START).length;
        if (is_start(search, &tree->nodes[at], kind) && length < shorter_than && (found == 0 || length > value_of(&tree->nodes[found], AT_START).length)) {
            found = at;
        }
    }
    return found;
}

/* Adds the file of an attribute, with more behind it. */
static void add_target(struct bytes *path, const struct rng_tree *tree, uint32_t index, struct span value, struct span more, const char *beside_path) {
    struct bytes words = NO_BYTES;
    add_by_bases(&words, tree, index, value);
    bytes_add(&words, more.data, more.length);
    add_local(path, &words, beside_path);
    bytes_free(&words);
}

/* Searches the catalog that an entry names. */
static bool follow(struct search *search, const struct rng_tree *tree, uint32_t index, const char *path, int depth) {
    struct bytes next = NO_BYTES;
    add_target(&next, tree, index, value_of(&tree->nodes[index], AT_CATALOG), (struct span){"", 0}, path);
    const char *text = bytes_text(&next);
    bool is_good = !next.failed;
    if (!is_good) {
        fault_set(search->fault, FAULT_MEMORY, (struct place){0, 0}, "out of memory");
    } else if (next.length > 0) {
        is_good = search_in(search, text, depth + 1);
    }
    bytes_free(&next);
    return is_good;
}

/* Searches the catalogs that are for this URI, the longest start first, or if there are none the next ones. */
static bool follow_all(struct search *search, const struct rng_tree *tree, const char *path, int depth) {
    uint32_t delegate = longest(search, tree, DELEGATE_URI, SIZE_MAX);
    bool is_good = true;
    bool has_delegate = delegate != 0;
    while (is_good && delegate != 0 && search->path->length == 0) {
        is_good = follow(search, tree, delegate, path, depth);
        delegate = longest(search, tree, DELEGATE_URI, value_of(&tree->nodes[delegate], AT_START).length);
    }
    for (uint32_t at = 1; at < tree->node_count && !has_delegate && is_good && search->path->length == 0; at++) {
        is_good = (enum kind)tree->nodes[at].kind != NEXT_CATALOG || follow(search, tree, at, path, depth);
    }
    return is_good;
}

/* Searches the entries of a catalog (OASIS XML Catalogs 7.2.2). */
static bool search_tree(struct search *search, const struct rng_tree *tree, const char *path, int depth) {
    for (uint32_t at = 1; at < tree->node_count; at++) {
        if ((enum kind)tree->nodes[at].kind == URI && span_equal(value_of(&tree->nodes[at], AT_NAME), search->uri)) {
            add_target(search->path, tree, at, value_of(&tree->nodes[at], AT_URI), (struct span){"", 0}, path);
            return true;
        }
    }
    uint32_t rewrite = longest(search, tree, REWRITE_URI, SIZE_MAX);
    if (rewrite != 0) {
        size_t start = value_of(&tree->nodes[rewrite], AT_START).length;
        struct span rest = {search->uri.data + start, search->uri.length - start};
        add_target(search->path, tree, rewrite, value_of(&tree->nodes[rewrite], AT_PREFIX), rest, path);
        return true;
    }
    return follow_all(search, tree, path, depth);
}

/* Searches a catalog, and those that it names. Only the fault of the first one counts. */
static bool search_in(struct search *search, const char *path, int depth) {
    struct source source;
    struct rng_tree tree;
    struct fault fault = NO_FAULT;
    if (depth == MOST_DEPTH || search->left == 0 || (depth > 0 && !is_file(path))) {
        return true;
    }
    search->left--;
    if (!source_open(&source, beside(path), (struct streams){false, false}, &fault)) {
        fault_set(search->fault, fault.kind, fault.place, "%s", bytes_text(&fault.what));
        fault_free(&fault);
        return false;
    }
    bool is_read = rng_tree_open(&tree, &vocabulary, &(struct byte_source){source_read, &source, NULL}, &fault);
    source_close(&source);
    bool is_good = is_read && search_tree(search, &tree, path, depth);
    if (!is_read && (depth == 0 || fault.kind == FAULT_MEMORY)) {
        fault_set(search->fault, fault.kind, fault.place, "%s", bytes_text(&fault.what));
    } else if (!is_read) {
        is_good = true;
    }
    rng_tree_close(&tree);
    fault_free(&fault);
    return is_good;
}

bool catalogs_find(const struct catalogs *catalogs, struct span uri, struct bytes *path, struct bytes *where, struct fault *fault) {
    for (size_t at = 0; at < catalogs->count && path->length == 0; at++) {
        struct fault own = NO_FAULT;
        struct search search = {uri, path, &own, MOST_CATALOGS};
        bool is_good = search_in(&search, catalogs->paths[at].data, 0);
        bool counts = own.kind == FAULT_MEMORY || at < catalogs->given;
        if (!is_good && counts) {
            fault_set(fault, own.kind, own.place, "%s", bytes_text(&own.what));
            bytes_add(where, catalogs->paths[at].data, catalogs->paths[at].length);
        }
        fault_free(&own);
        if (!is_good && counts) {
            return false;
        }
    }
    if (path->failed) {
        fault_set(fault, FAULT_MEMORY, (struct place){0, 0}, "out of memory");
    }
    return !path->failed;
}
