#include "rng_uri.h"

#include "paths.h"
#include "xml_names.h"

enum { MOST_BASES = 512 }; /* as many as there may be open elements */

/* The parts of a URI up to its path: `file://host` of `file://host/a/b`, and the end of its path. */
struct parts {
    size_t scheme; /* its end, behind the colon */
    size_t host;   /* the end of the authority */
    size_t path;   /* the end of the path */
};

static bool is_letter(char byte) {
    return (byte >= 'a' && byte <= 'z') || (byte >= 'A' && byte <= 'Z');
}

static bool is_digit(char byte) {
    return byte >= '0' && byte <= '9';
}

static bool is_hexadecimal(char byte) {
    return is_digit(byte) || (byte >= 'a' && byte <= 'f') || (byte >= 'A' && byte <= 'F');
}

struct span uri_scheme(struct span uri) {
    size_t at = 0;
    while (at < uri.length && (is_letter(uri.data[at]) || (at > 0 && (is_digit(uri.data[at]) || strchr("+-.", uri.data[at]) != NULL)))) {
        at++;
    }
    return (struct span){uri.data, at < uri.length && uri.data[at] == ':' ? at : 0};
}

bool uri_is_sound(struct span uri) {
    for (size_t at = 0; at < uri.length; at++) {
        bool is_escape = at + 2 < uri.length && is_hexadecimal(uri.data[at + 1]) && is_hexadecimal(uri.data[at + 2]);
        if (uri.data[at] == '#' || (uri.data[at] == '%' && !is_escape)) {
            return false;
        }
    }
    return true;
}

void add_escaped_uri(struct bytes *to, struct span uri) {
    for (size_t at = 0; at < uri.length; at++) {
        unsigned char byte = (unsigned char)uri.data[at];
        if (byte <= ' ' || byte >= 0x7F || strchr("<>\"{}|\\^`", byte) != NULL) {
            bytes_format(to, "%%%02X", byte);
        } else {
            bytes_add_byte(to, (char)byte);
        }
    }
}

static size_t up_to(struct span uri, size_t begin, const char *stops) {
    size_t at = begin;
    while (at < uri.length && strchr(stops, uri.data[at]) == NULL) {
        at++;
    }
    return at;
}

static struct parts parts_of(struct span uri) {
    size_t scheme = uri_scheme(uri).length;
    struct parts parts = {scheme + (scheme > 0), 0, 0};
    bool has_host = parts.scheme + 2 <= uri.length && memcmp(uri.data + parts.scheme, "//", 2) == 0;
    parts.host = has_host ? up_to(uri, parts.scheme + 2, "/?#") : parts.scheme;
    parts.path = up_to(uri, parts.host, "?#");
    return parts;
}

/* Whether the path is that of a folder: its last part is empty, `.` or `..`. */
static bool is_folder(const char *path) {
    const char *slash = strrchr(path, '/');
    const char *last = slash == NULL ? path : slash + 1;
    return last[0] == '\0' || strcmp(last, ".") == 0 || strcmp(last, "..") == 0;
}

/* Adds a path without `.` and `..` in it, as far as they can be taken out. What follows the path stays. */
static void add_path(struct bytes *to, struct bytes *path, struct span rest) {
    struct bytes normal = NO_BYTES;
    const char *text = bytes_text(path);
    if (text[0] != '\0') {
        add_normal(&normal, text);
    }
    if (normal.length > 0 && is_folder(text) && normal.data[normal.length - 1] != '/') {
        bytes_add_byte(&normal, '/');
    }
    bytes_add(to, normal.data, normal.length);
    bytes_add(to, rest.data, rest.length);
    to->failed |= normal.failed || path->failed;
    bytes_free(&normal);
}

/* Adds a reference, resolved by a base. */
static void add_resolved(struct bytes *to, struct span base, struct span reference) {
    struct parts of_base = parts_of(base);
    struct parts parts = parts_of(reference);
    struct bytes path = NO_BYTES;
    if (base.length == 0 || parts.scheme > 0) {
        bytes_add(to, reference.data, reference.length);
        return;
    }
    if (parts.host > 0) {
        bytes_add(to, base.data, of_base.scheme);
        bytes_add(to, reference.data, reference.length);
        return;
    }
    size_t end = of_base.path;
    while (end > of_base.host && base.data[end - 1] != '/') {
        end--;
    }
    bool is_absolute = parts.path > 0 && reference.data[0] == '/';
    bytes_add(to, base.data, of_base.host);
    bytes_add(&path, base.data + of_base.host, is_absolute ? 0 : reference.length == 0 ? of_base.path - of_base.host : end - of_base.host);
    if (path.length == 0 && of_base.host > of_base.scheme && !is_absolute) {
        bytes_add_byte(&path, '/');
    }
    bytes_add(&path, reference.data, parts.path);
    add_path(to, &path, (struct span){reference.data + parts.path, reference.length - parts.path});
    bytes_free(&path);
}

void add_by_bases(struct bytes *to, const struct rng_tree *tree, uint32_t index, struct span uri) {
    uint32_t bases[MOST_BASES];
    size_t count = 0;
    struct bytes base = NO_BYTES;
    for (uint32_t at = index; at != 0 && count < MOST_BASES; at = tree->nodes[at].parent) {
        if (rng_has(&tree->nodes[at], RNG_AT_BASE)) {
            bases[count++] = at;
        }
    }
    while (count > 0) {
        struct bytes inner = NO_BYTES;
        add_resolved(&inner, (struct span){base.data == NULL ? "" : base.data, base.length}, tree->nodes[bases[--count]].values[RNG_AT_BASE]);
        to->failed |= base.failed;
        bytes_free(&base);
        base = inner;
    }
    add_resolved(to, (struct span){base.data == NULL ? "" : base.data, base.length}, uri);
    to->failed |= base.failed;
    bytes_free(&base);
}
