#include "external.h"

#include "decoding.h"
#include "parser_memory.h"

#include <errno.h>
#include <fcntl.h>
#include <libxml/catalog.h>
#include <pthread.h>
#include <stdlib.h>
#include <string.h>
#include <sys/stat.h>
#include <unistd.h>

enum { PIECE_BYTES = 65536, MOST_BYTES = 16777216 };

static pthread_once_t has_catalogs = PTHREAD_ONCE_INIT;

static bool fails(struct fault *fault, enum fault_kind kind, const char *what) {
    fault_set(fault, kind, (struct place){0, 0}, "%s", what);
    return false;
}

static int value_of(char digit) {
    return digit >= '0' && digit <= '9' ? digit - '0' : digit >= 'a' && digit <= 'f' ? digit - 'a' + 10 : digit >= 'A' && digit <= 'F' ? digit - 'A' + 10 : -1;
}

/* Adds a text with its escapes such as `%20` read. */
static void add_unescaped(struct bytes *path, const char *text) {
    for (; *text != '\0'; text++) {
        bool is_escape = text[0] == '%' && value_of(text[1]) >= 0 && value_of(text[2]) >= 0;
        bytes_add_byte(path, is_escape ? (char)(16 * value_of(text[1]) + value_of(text[2])) : *text);
        text += is_escape ? 2 : 0;
    }
}

/* Adds the path that a URI means. False: it means none, as an address of the network. */
static bool add_path(struct bytes *path, const char *uri) {
    static const char *const schemes[] = {"file://localhost/", "file:///", "file:/"};
    for (size_t at = 0; at < sizeof schemes / sizeof *schemes; at++) {
        size_t length = strlen(schemes[at]);
        if (strncmp(uri, schemes[at], length) == 0) {
            add_unescaped(path, uri + length - 1);
            return true;
        }
    }
    size_t scheme = strspn(uri, "abcdefghijklmnopqrstuvwxyzABCDEFGHIJKLMNOPQRSTUVWXYZ0123456789+.-");
    if (scheme > 1 && uri[scheme] == ':') {
        return false;
    }
    struct stat found;
    bool is_as_written = stat(uri, &found) == 0;
    if (is_as_written) {
        bytes_add_text(path, uri);
    } else {
        add_unescaped(path, uri);
    }
    return true;
}

/* Adds the path of the entity, as a catalog says, or else as the URI does. */
static bool find(const xmlChar *public, const xmlChar *uri, struct bytes *path) {
    /* what the catalogs keep is of no conversion */
    parser_memory_pause(true);
    /* libxml2 makes the lock of the catalogs at their first use. If two threads did that at once, they would wait forever */
    (void)pthread_once(&has_catalogs, xmlInitializeCatalog);
    xmlChar *mapped = xmlCatalogResolve(public, uri);
    bool is_found = add_path(path, mapped == NULL ? (const char *)uri : (const char *)mapped);
    xmlFree(mapped);
    parser_memory_pause(false);
    return is_found;
}

/* Reads a file into the decoder. */
static bool read_all(int file, struct decoding *decoding, struct bytes *text, struct fault *fault) {
    char *piece = malloc(PIECE_BYTES);
    bool is_good = piece != NULL || fails(fault, FAULT_MEMORY, "out of memory");
    ssize_t length = 1;
    while (is_good && length > 0) {
        length = read(file, piece, PIECE_BYTES);
        if (length < 0 && errno == EINTR) {
            length = 1;
            continue;
        }
        if (length < 0) {
            is_good = fails(fault, FAULT_OUTSIDE, strerror(errno));
        } else if (length > 0) {
            decoding_take(decoding, piece, (size_t)length, text);
            is_good = text->length <= MOST_BYTES || fails(fault, FAULT_OUTSIDE, "it has more than 16,777,216 bytes");
        }
    }
    free(piece);
    return is_good;
}

/* Opens a file of bytes. Others, such as pipes, may never end. */
static int open_file(const char *path, struct fault *fault) {
    struct stat found;
    int file = open(path, O_RDONLY | O_CLOEXEC | O_NOCTTY | O_NONBLOCK);
    if (file < 0 || fstat(file, &found) != 0) {
        fails(fault, FAULT_OUTSIDE, strerror(errno));
    } else if (!S_ISREG(found.st_mode)) {
        fails(fault, FAULT_OUTSIDE, "it is no file");
    } else {
        return file;
    }
    if (file >= 0) {
        close(file);
    }
    return -1;
}

bool external_read(const struct external *entity, struct bytes *text, struct bytes *path, struct bytes *encoding, struct fault *fault) {
    if (entity->uri == NULL || !find(entity->public, entity->uri, path)) {
        return fails(fault, FAULT_OUTSIDE, "nothing is fetched");
    }
    int file = open_file(bytes_text(path), fault);
    if (file < 0) {
        return false;
    }
    struct decoding decoding = NO_DECODING;
    decoding.is_external = true;
    bool is_good = read_all(file, &decoding, text, fault);
    close(file);
    if (is_good) {
        decoding_end(&decoding, text);
    }
    if (is_good && decoding.fault.kind != FAULT_NONE) {
        is_good = fails(fault, decoding.fault.kind, bytes_text(&decoding.fault.what));
    }
    bytes_add_text(encoding, decoding.is_by_iconv ? decoding.encoding : "");
    decoding_free(&decoding);
    return is_good && !path->failed && !encoding->failed;
}
