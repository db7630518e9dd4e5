#include "documents.h"

#include <dirent.h>
#include <errno.h>
#include <fnmatch.h>
#include <stdlib.h>
#include <string.h>
#include <sys/stat.h>

enum {
    MOST_DEPTH = 1000, /* of folders */
    LIST_BYTES = 65536, /* of a list of names, to read at once */
    MOST_NAME = 1048576 /* bytes of a name in a list */
};

struct names {
    char *folder;
    char **list;
    size_t count;
    size_t capacity;
    size_t next;
};

void documents_open(struct documents *documents, const struct options *options, struct streams streams) {
    memset(documents, 0, sizeof *documents);
    documents->options = options;
    documents->streams = streams;
    bool is_open_ended = options->files_from != NULL || options->is_recursive;
    documents->known = is_open_ended ? 0 : options->document_count;
    documents->input_was_named = options->files_from != NULL && strcmp(options->files_from, "-") == 0;
}

void document_free(struct document *document) {
    free(document->name);
    bytes_free(&document->why);
    *document = (struct document){NULL, false, NO_BYTES};
}

static void names_free(struct names *names) {
    if (names == NULL) {
        return;
    }
    for (size_t at = 0; at < names->count; at++) {
        free(names->list[at]);
    }
    free(names->list);
    free(names->folder);
    free(names);
}

void documents_close(struct documents *documents) {
    while (documents->depth > 0) {
        names_free(documents->folders[--documents->depth]);
    }
    free(documents->folders);
    bytes_free(&documents->waiting);
    source_close(&documents->list);
}

static bool add_name(struct names *names, const char *name) {
    if (names->count == names->capacity) {
        size_t capacity = names->capacity == 0 ? 16 : 2 * names->capacity;
        char **list = realloc(names->list, capacity * sizeof *list);
        if (list == NULL) {
            return false;
        }
        names->list = list;
        names->capacity = capacity;
    }
    char *copy = strdup(name);
    if (copy == NULL) {
        return false;
    }
    names->list[names->count++] = copy;
    return true;
}

static int compare_names(const void *one, const void *other) {
    return strcmp(*(char *const *)one, *(char *const *)other);
}

/* The names in a folder, sorted. NULL: it failed, and `errno` says why. */
static struct names *names_of(const char *folder) {
    struct names *names = calloc(1, sizeof *names);
    DIR *directory = names == NULL ? NULL : opendir(folder);
    int error = errno;
    bool is_good = directory != NULL;
    while (is_good) {
        errno = 0;
        const struct dirent *entry = readdir(directory);
        error = errno;
        is_good = error == 0;
        if (entry == NULL) {
            break;
        }
        if (strcmp(entry->d_name, ".") != 0 && strcmp(entry->d_name, "..") != 0 && !add_name(names, entry->d_name)) {
            error = ENOMEM;
            is_good = false;
        }
    }
    if (directory != NULL) {
        closedir(directory);
    }
    names = is_good ? names : (names_free(names), NULL);
    if (names != NULL && names->count > 0) {
        qsort(names->list, names->count, sizeof *names->list, compare_names);
    }
    errno = error;
    return names;
}

/* Notes why the name gives no document. Returns true: that is an answer too. */
static bool fails(struct document *document, const char *why) {
    document->is_failed = true;
    bytes_add_text(&document->why, why);
    return true;
}

/* Begins to search a folder. True: that failed, which is the answer for its name. */
static bool enter(struct documents *documents, const char *folder, struct document *document) {
    if (documents->depth == MOST_DEPTH) {
        return fails(document, "the folders are too deep");
    }
    if (documents->depth == documents->capacity) {
        size_t capacity = documents->capacity == 0 ? 8 : 2 * documents->capacity;
        struct names **folders = realloc(documents->folders, capacity * sizeof *folders);
        if (folders == NULL) {
            return fails(document, "out of memory");
        }
        documents->folders = folders;
        documents->capacity = capacity;
    }
    struct names *names = names_of(folder);
    if (names == NULL) {
        return fails(document, errno == ENOMEM ? "out of memory" : strerror(errno));
    }
    names->folder = strdup(folder);
    if (names->folder == NULL) {
        names_free(names);
        return fails(document, "out of memory");
    }
    documents->folders[documents->depth++] = names;
    return false;
}

/* Whether to take this name in a folder. */
static bool is_wanted(const struct options *options, const char *name) {
    if (options->glob_count == 0) {
        return fnmatch("*.xml", name, 0) == 0;
    }
    for (size_t at = 0; at < options->glob_count; at++) {
        if (fnmatch(options->globs[at], name, 0) == 0) {
            return true;
        }
    }
    return false;
}

/* Looks at the next name in the innermost folder. A link to a folder is not followed: it may lead in a circle. What is neither a file nor a link to one,
 * as a pipe, is no document: to open it may take for ever. What cannot be looked at may be a folder, unless it is gone. False: it gives no document. */
static bool next_in_folder(struct documents *documents, struct document *document) {
    struct names *names = documents->folders[documents->depth - 1];
    struct stat found;
    if (names->next == names->count) {
        names_free(names);
        documents->depth--;
        return false;
    }
    const char *name = names->list[names->next++];
    struct bytes path = NO_BYTES;
    size_t length = strlen(names->folder);
    bytes_format(&path, "%s%s%s", names->folder, length > 0 && names->folder[length - 1] == '/' ? "" : "/", name);
    const char *text = bytes_text(&path);
    bool is_cut = path.failed;
    document->name = strdup(is_cut ? names->folder : text);
    bytes_free(&path);
    if (document->name == NULL || is_cut) {
        return fails(document, "out of memory");
    }
    bool is_there = lstat(document->name, &found) == 0;
    if (is_there && S_ISDIR(found.st_mode)) {
        return enter(documents, document->name, document);
    }
    if (!is_there && errno != ENOENT) {
        return fails(document, strerror(errno));
    }
    if (!is_wanted(documents->options, name)) {
        return false;
    }
    return !is_there || stat(document->name, &found) != 0 || S_ISREG(found.st_mode);
}

/* Reads what there is of the list of names, and waits if there is nothing. False: there is no more, or `document` says what failed. */
static bool read_list(struct documents *documents, struct document *document) {
    struct fault fault = NO_FAULT;
    struct bytes *waiting = &documents->waiting;
    size_t length = 0;
    bytes_cut_front(waiting, documents->used);
    documents->used = 0;
    bool is_good = bytes_reserve(waiting, LIST_BYTES) && source_read(&documents->list, waiting->data + waiting->length, LIST_BYTES, &length, &fault);
    if (!is_good) {
        fails(document, fault.kind == FAULT_NONE ? "out of memory" : bytes_text(&fault.what));
    }
    waiting->length += length;
    documents->list_has_ended = length == 0;
    fault_free(&fault);
    return length > 0;
}

/* Opens the list. False: `document` says what failed. */
static bool begin_list(struct documents *documents, struct document *document) {
    struct fault fault = NO_FAULT;
    documents->list_is_begun = true;
    documents->is_separated = documents->options->has_zeros;
    if (!source_open(&documents->list, documents->options->files_from, documents->streams, &fault)) {
        documents->list_has_ended = true;
        fails(document, bytes_text(&fault.what));
    }
    fault_free(&fault);
    return !document->is_failed;
}

/* Finds what separates the names, once the first of them has ended. It is a zero byte if there is one so far, since a line has none; else a line feed. */
static void find_separator(struct documents *documents) {
    const struct bytes *waiting = &documents->waiting;
    if (!documents->is_separated && waiting->length > 0) {
        bool has_zero = memchr(waiting->data, '\0', waiting->length) != NULL;
        documents->is_separated = has_zero || memchr(waiting->data, '\n', waiting->length) != NULL;
        documents->separator = has_zero ? '\0' : '\n';
    }
}

/* Reads the list until it has a whole name, which may be empty. No data: there is none, or `document` says what failed. */
static struct span whole_name(struct documents *documents, struct document *document) {
    struct bytes *waiting = &documents->waiting;
    for (;;) {
        size_t left = waiting->length - documents->used;
        const char *begin = left > 0 ? waiting->data + documents->used : NULL;
        find_separator(documents);
        const char *end = documents->is_separated && begin != NULL ? memchr(begin, documents->separator, left) : NULL;
        if (end != NULL || (documents->list_has_ended && left > 0)) {
            size_t length = end == NULL ? left : (size_t)(end - begin);
            documents->used += length + (end != NULL);
            return (struct span){begin, length};
        }
        if (documents->list_has_ended) {
            return (struct span){NULL, 0};
        }
        if (left > MOST_NAME) {
            fails(document, "a name in it has more than 1,048,576 bytes");
            return (struct span){NULL, 0};
        }
        if (!read_list(documents, document) && document->is_failed) {
            return (struct span){NULL, 0};
        }
    }
}

/* Gets the next name of the list. False: there is none. */
static bool next_in_list(struct documents *documents, struct document *document) {
    struct span name = {NULL, 0};
    if (documents->list_is_begun || begin_list(documents, document)) {
        do {
            name = whole_name(documents, document);
        } while (name.data != NULL && name.length == 0);
    }
    if (document->is_failed) {
        documents->list_has_ended = true;
        documents->used = documents->waiting.length;
        document->name = strdup(documents->options->files_from);
        return true;
    }
    if (name.data == NULL) {
        return false;
    }
    document->name = strndup(name.data, name.length);
    if (document->name != NULL && memchr(name.data, '\0', name.length) != NULL) {
        return fails(document, "a line of the list has a zero byte in it: with --null zero bytes separate the names");
    }
    return document->name != NULL || fails(document, "out of memory");
}

/* Takes a name that is given or in the list. A folder is searched. Standard input is read once. False: the name gives no document yet. */
static bool take_name(struct documents *documents, struct document *document) {
    struct stat found;
    if (strcmp(document->name, "-") == 0) {
        if (documents->input_was_named) {
            return fails(document, "standard input is named twice, and can be read only once");
        }
        documents->input_was_named = true;
        return true;
    }
    if (stat(document->name, &found) == 0 && S_ISDIR(found.st_mode)) {
        return documents->options->is_recursive ? enter(documents, document->name, document)
                                                : fails(document, "it is a folder: --recursive judges the documents in folders");
    }
    return true;
}

bool documents_next(struct documents *documents, struct document *document) {
    *document = (struct document){NULL, false, NO_BYTES};
    while (!documents->has_ended) {
        if (documents->depth > 0) {
            if (next_in_folder(documents, document)) {
                return true;
            }
        } else if (documents->next < documents->options->document_count) {
            document->name = strdup(documents->options->documents[documents->next++]);
            if (document->name == NULL ? fails(document, "out of memory") : take_name(documents, document)) {
                return true;
            }
        } else if (documents->options->files_from != NULL && next_in_list(documents, document)) {
            if (document->is_failed || take_name(documents, document)) {
                return true;
            }
        } else {
            documents->has_ended = true;
        }
        document_free(document);
    }
    return false;
}
