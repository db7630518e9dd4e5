/* Files of a schema in the XML syntax: they are written in the compact one, and the library gets that. */
#include "judging.h"
#include "paths.h"
#include "program.h"
#include "rng_writer.h"
#include "schema_collecting.h"

#include <inttypes.h>

enum { MOST_XML_BYTES = 16777216 };

/* The file that is being written. */
struct naming {
    struct collecting *collecting;
    size_t index;
};

static bool is_words(const struct bytes *one, const struct bytes *other) {
    return one->length == other->length && (one->length == 0 || memcmp(one->data, other->data, one->length) == 0);
}

static bool is_one_file(struct bytes *one, struct bytes *other) {
    bool has_none = one->length == 0 || other->length == 0;
    return has_none ? one->length == other->length : is_same(bytes_text(one), bytes_text(other));
}

/* An earlier meaning of this file; NULL: there is none. */
static struct meaning *meaning_of_file(struct collecting *collecting, struct meaning *meaning) {
    for (size_t at = 0; at < collecting->count && meaning->file.length > 0; at++) {
        if (is_one_file(&collecting->meanings[at].file, &meaning->file)) {
            return &collecting->meanings[at];
        }
    }
    return NULL;
}

/* Whether the words mean another file already. */
static bool is_taken(struct collecting *collecting, struct meaning *meaning) {
    for (size_t at = 0; at < collecting->count; at++) {
        if (is_words(&collecting->meanings[at].words, &meaning->words)) {
            return !is_one_file(&collecting->meanings[at].file, &meaning->file);
        }
    }
    return false;
}

/* Replaces the words by ones that mean no other file: `./` before them. */
static void make_own(struct collecting *collecting, struct meaning *meaning) {
    while (!meaning->words.failed && is_taken(collecting, meaning)) {
        struct bytes words = NO_BYTES;
        bytes_add_text(&words, "./");
        bytes_add(&words, meaning->words.data, meaning->words.length);
        bytes_free(&meaning->words);
        meaning->words = words;
    }
}

/* Whether a file has this name. */
static bool has_name(const struct schema_files *files, const struct bytes *name) {
    for (size_t at = 0; at < files->count; at++) {
        if (is_words(&files->list[at].name, name)) {
            return true;
        }
    }
    return false;
}

void add_flat_name(struct bytes *name, const struct schema_files *files, const char *path) {
    const char *slash = strrchr(path, '/');
    const char *base = slash == NULL ? path : slash + 1;
    size_t length = strlen(base);
    bool has_end = length > 4 && (strcmp(base + length - 4, ".rng") == 0 || strcmp(base + length - 4, ".rnc") == 0);
    size_t number = 1;
    do {
        bytes_clear(name);
        bytes_add(name, base, has_end ? length - 4 : length);
        if (number > 1) {
            bytes_format(name, "-%zu", number);
        }
        bytes_add_text(name, ".rnc");
        number++;
    } while (!name->failed && has_name(files, name));
}

/* Replaces the words of a mention, if they have to be others. */
static void choose_words(struct collecting *collecting, struct meaning *meaning) {
    if (collecting->request->is_flat && meaning->file.length > 0) {
        add_flat_name(&meaning->words, collecting->files, bytes_text(&meaning->file));
    } else {
        make_own(collecting, meaning);
    }
}

/* Chooses the words for a mention. Since the text is written here, no two files need to have one name, and no file two. */
static bool name_file(void *context, const struct bytes *href, struct place place, struct bytes *words, struct fault *fault) {
    struct naming *naming = context;
    struct collecting *collecting = naming->collecting;
    struct meaning meaning = {NO_BYTES, NO_BYTES, naming->index};
    (void)fault;
    if (collecting->files->problem_status != 0) {
        return false; /* a note that is refused */
    }
    bytes_add(&meaning.words, href->data, href->length);
    if (files_are_too_many(collecting)) {
        bytes_add(words, href->data, href->length);
        bytes_free(&meaning.words);
        return true;
    }
    bool is_good = !meaning.words.failed ? count_mention(collecting, naming->index) && find_meaning(collecting, &meaning)
                                         : files_without_memory(collecting->files);
    struct meaning *same = is_good ? meaning_of_file(collecting, &meaning) : NULL;
    if (same != NULL) {
        bytes_add(words, same->words.data, same->words.length);
    } else if (is_good) {
        choose_words(collecting, &meaning);
        bytes_add(words, meaning.words.data, meaning.words.length);
        is_good = !meaning.words.failed ? keep_meaning(collecting, &meaning) : files_without_memory(collecting->files);
        is_good = is_good && (meaning.file.length == 0 ? keep_missing(collecting, &meaning, place) : hand_in(collecting, &meaning));
    }
    bytes_free(&meaning.words);
    bytes_free(&meaning.file);
    return is_good;
}

static bool give(void *context, char *bytes, size_t size, size_t *length, struct fault *fault) {
    struct span *left = context;
    (void)fault;
    *length = left->length < size ? left->length : size;
    if (*length > 0) {
        memcpy(bytes, left->data, *length);
        *left = (struct span){left->data + *length, left->length - *length};
    }
    return true;
}

/* Keeps a note as a line, or as the problem if notes are refused. */
static void take_note(void *context, struct place place, const char *what) {
    struct naming *naming = context;
    struct schema_files *files = naming->collecting->files;
    struct bytes *path = &files->list[naming->index].path;
    if (naming->collecting->request->refuses_notes) {
        struct bytes line = NO_BYTES;
        add_shown(&line, what, strlen(what), SIZE_MAX);
        add_path(&files->problem_path, bytes_text(path));
        files->problem_place = place;
        line.failed |= files->problem_path.failed;
        files_problem(files, STATUS_REFUSED, &line);
        bytes_free(&line);
        return;
    }
    bytes_add_text(&files->notes, files->notes.length > 0 ? "\n" : "");
    add_shown(&files->notes, path->data, path->length, SIZE_MAX);
    bytes_format(&files->notes, ":%" PRIu64 ":%" PRIu64 ": note: ", place.line, place.column);
    add_shown(&files->notes, what, strlen(what), SIZE_MAX);
}

/* Notes why the file is no schema. */
static bool refuse(struct collecting *collecting, size_t index, const struct fault *fault) {
    struct schema_files *files = collecting->files;
    struct bytes line = NO_BYTES;
    if (fault->kind == FAULT_MEMORY || files->problem_status != 0) {
        return files->problem_status != 0 ? false : files_without_memory(files);
    }
    add_shown(&line, fault->what.data, fault->what.length, SIZE_MAX);
    add_path(&files->problem_path, bytes_text(&files->list[index].path));
    files->problem_place = fault->place;
    line.failed |= files->problem_path.failed;
    files_problem(files, STATUS_REFUSED, &line);
    bytes_free(&line);
    return false;
}

bool take_xml(struct collecting *collecting, size_t index) {
    struct schema_files *files = collecting->files;
    struct bytes xml = files->list[index].content; /* the list may move while what the file mentions is added */
    struct span left = {xml.data, xml.length};
    struct naming naming = {collecting, index};
    struct fault fault = NO_FAULT;
    struct rng_text written = {NO_BYTES, {NULL, 0, 0}};
    files->list[index].content = (struct bytes)NO_BYTES;
    if (xml.length > MOST_XML_BYTES) {
        fault_set(&fault, FAULT_OUTSIDE, (struct place){1, 1}, "the file has more than 16,777,216 bytes: outside the profile");
    } else {
        const struct byte_source source = {give, &left, NULL};
        rng_convert(&(struct rng_request){&source, &(struct rng_naming){name_file, &naming}, take_note, &naming}, &written, &fault);
    }
    bool is_good = fault.kind == FAULT_NONE ? !files->notes.failed || files_without_memory(files) : refuse(collecting, index, &fault);
    is_good = is_good && files->problem_status == 0;
    files->list[index].content = written.text;
    files->list[index].origins = written.origins;
    bytes_free(&xml);
    fault_free(&fault);
    return is_good;
}
