#include "paths.h"

#include <string.h>
#include <strings.h>
#include <sys/stat.h>

/* The length of the UTF-8 character that begins here; 0 if none does. */
static size_t character_at(const unsigned char *bytes, size_t left) {
    unsigned char first = bytes[0];
    size_t length = first < 0x80 ? 1 : first < 0xC2 ? 0 : first < 0xE0 ? 2 : first < 0xF0 ? 3 : first < 0xF5 ? 4 : 0;
    if (length == 0 || length > left) {
        return 0;
    }
    for (size_t at = 1; at < length; at++) {
        if ((bytes[at] & 0xC0) != 0x80) {
            return 0;
        }
    }
    bool is_bad = (first == 0xE0 && bytes[1] < 0xA0) || (first == 0xED && bytes[1] > 0x9F) || (first == 0xF0 && bytes[1] < 0x90) ||
                  (first == 0xF4 && bytes[1] > 0x8F);
    return is_bad ? 0 : length;
}

bool is_utf_8(const char *bytes, size_t length) {
    size_t at = 0;
    while (at < length) {
        size_t size = character_at((const unsigned char *)bytes + at, length - at);
        if (size == 0) {
            return false;
        }
        at += size;
    }
    return true;
}

bool is_file(const char *path) {
    struct stat found;
    return stat(path, &found) == 0 && S_ISREG(found.st_mode);
}

bool is_same(const char *first, const char *second) {
    struct stat one;
    struct stat other;
    bool is_first = stat(first, &one) == 0;
    bool is_second = stat(second, &other) == 0;
    return is_first == is_second && (!is_first || (one.st_dev == other.st_dev && one.st_ino == other.st_ino));
}

static int hexadecimal(char byte) {
    return byte >= '0' && byte <= '9' ? byte - '0' : byte >= 'a' && byte <= 'f' ? byte - 'a' + 10 : byte >= 'A' && byte <= 'F' ? byte - 'A' + 10 : -1;
}

/* Adds the text with `%20` and the like replaced. A path has no zero byte, so `%00` stays as it is written. */
static void add_unquoted(struct bytes *path, const char *text, size_t length) {
    for (size_t at = 0; at < length; at++) {
        int high = text[at] == '%' && at + 2 < length ? hexadecimal(text[at + 1]) : -1;
        int low = high >= 0 ? hexadecimal(text[at + 2]) : -1;
        if (low >= 0 && high * 16 + low > 0) {
            bytes_add_byte(path, (char)(high * 16 + low));
            at += 2;
        } else {
            bytes_add_byte(path, text[at]);
        }
    }
}

/* The length of the scheme at the start of the words, with its colon. A scheme has at least two characters. 0: there is none. */
static size_t scheme_length(const char *words, size_t length) {
    size_t at = 0;
    while (at < length) {
        char byte = words[at];
        bool is_letter = (byte >= 'a' && byte <= 'z') || (byte >= 'A' && byte <= 'Z');
        bool is_other = byte == '-' || byte == '+' || byte == '.' || (byte >= '0' && byte <= '9');
        if (byte == ':') {
            return at >= 2 ? at + 1 : 0;
        }
        if (!is_letter && (at == 0 || !is_other)) {
            return 0;
        }
        at++;
    }
    return 0;
}

/* The path of a `file:` URI of this machine, as it is written. Without data: the file would have to be fetched. */
static struct span local_path(const char *words, size_t length, size_t scheme) {
    struct span path = {words + scheme, length - scheme};
    if (scheme != 5 || strncasecmp(words, "file:", 5) != 0) {
        return (struct span){NULL, 0};
    }
    if (path.length >= 2 && memcmp(path.data, "//", 2) == 0) {
        const char *host = path.data + 2;
        const char *slash = memchr(host, '/', path.length - 2);
        size_t host_length = slash == NULL ? path.length - 2 : (size_t)(slash - host);
        if (host_length != 0 && !(host_length == 9 && memcmp(host, "localhost", 9) == 0)) {
            return (struct span){NULL, 0};
        }
        path = (struct span){host + host_length, path.length - 2 - host_length};
    }
    for (size_t at = 0; at < path.length; at++) {
        if (path.data[at] == '?' || path.data[at] == '#') {
            path.length = at;
        }
    }
    return path;
}

bool is_remote(const struct bytes *words) {
    size_t scheme = words->length == 0 ? 0 : scheme_length(words->data, words->length);
    return scheme > 0 && local_path(words->data, words->length, scheme).data == NULL;
}

/* Begins a way with the folder of the path, unless the words are a path from the root. */
static struct bytes *add_way(struct ways *ways, struct span words, const char *path) {
    struct bytes *way = &ways->list[ways->count++];
    const char *slash = strrchr(path, '/');
    if (slash != NULL && (words.length == 0 || words.data[0] != '/')) {
        bytes_add(way, path, (size_t)(slash - path) + 1);
    }
    return way;
}

bool ways_of(struct ways *ways, const struct bytes *words, const char *path) {
    *ways = (struct ways){{NO_BYTES, NO_BYTES}, 0};
    size_t scheme = words->length == 0 ? 0 : scheme_length(words->data, words->length);
    struct span plain = {words->data, words->length};
    if (scheme > 0) {
        plain = local_path(words->data, words->length, scheme);
        if (plain.data == NULL) {
            return true;
        }
    } else if (words->length == 0 || memchr(words->data, '\0', words->length) != NULL) {
        return true;
    } else {
        bytes_add(add_way(ways, plain, path), plain.data, plain.length);
    }
    if (scheme > 0 || memchr(plain.data, '%', plain.length) != NULL) {
        struct bytes unquoted = NO_BYTES;
        add_unquoted(&unquoted, plain.data, plain.length);
        bytes_add(add_way(ways, (struct span){unquoted.data, unquoted.length}, path), unquoted.data, unquoted.length);
        bool is_cut = unquoted.failed;
        bytes_free(&unquoted);
        if (is_cut) {
            return false;
        }
    }
    bytes_text(&ways->list[0]); /* the room for a zero after each */
    bytes_text(&ways->list[1]);
    return !ways->list[0].failed && !ways->list[1].failed;
}

void ways_free(struct ways *ways) {
    bytes_free(&ways->list[0]);
    bytes_free(&ways->list[1]);
}

/* Takes the last part off a normal path. False: it cannot be taken off. */
static bool take_off(struct bytes *normal, size_t root) {
    size_t at = normal->length;
    while (at > root && normal->data[at - 1] != '/') {
        at--;
    }
    if (normal->length == root || (normal->length - at == 2 && memcmp(normal->data + at, "..", 2) == 0)) {
        return false;
    }
    normal->length = at > root ? at - 1 : at;
    return true;
}

void add_normal(struct bytes *normal, const char *path) {
    size_t root = path[0] == '/';
    bytes_clear(normal);
    bytes_add(normal, "/", root);
    while (*path != '\0') {
        size_t length = strcspn(path, "/");
        bool is_up = length == 2 && memcmp(path, "..", 2) == 0;
        bool is_nothing = length == 0 || (length == 1 && path[0] == '.') || (is_up && root == 1 && normal->length == 1);
        if (!is_nothing && !(is_up && take_off(normal, root))) {
            if (normal->length > root) {
                bytes_add_byte(normal, '/');
            }
            bytes_add(normal, path, length);
        }
        path += length + (path[length] == '/');
    }
    if (normal->length == 0) {
        bytes_add_byte(normal, '.');
    }
}
