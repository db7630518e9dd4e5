#include "schema_collecting.h"

#include "judging.h"
#include "paths.h"
#include "program.h"
#include "schema_annotations.h"
#include "schema_merging.h"
#include "schema_tokens.h"

#include <stdlib.h>
#include <string.h>

enum {
    MOST_HANDED = 64,        /* with one more the library says S2 */
    MOST_FILES = 1024,       /* that are read */
    MOST_BYTES = 1048576,    /* of a file; with one more the same */
    MARK_BYTES = 3,          /* of a byte order mark, which the library does not get */
    MOST_XML_BYTES = 16777216, /* of a file in the XML syntax */
    MOST_MENTIONS = 8192     /* with more than 4,096 paths of them the library says S9 */
};

static void add_bytes(struct bytes *to, const struct bytes *from) {
    bytes_add(to, from->data, from->length);
}

static bool is_equal(const struct bytes *one, const struct bytes *other) {
    return one->length == other->length && (one->length == 0 || memcmp(one->data, other->data, one->length) == 0);
}

bool files_without_memory(struct schema_files *files) {
    files->failed = true;
    files->problem_status = STATUS_FAILED;
    return false;
}

void files_problem(struct schema_files *files, int status, const struct bytes *line) {
    if (files->problem_status == 0) {
        files->problem_status = status;
        add_bytes(&files->problem, line);
        bytes_text(&files->problem);
    }
    if (line->failed || files->problem.failed) {
        files_without_memory(files);
    }
}

void add_path(struct bytes *to, const char *path) {
    bytes_add_text(to, strcmp(path, "-") == 0 ? "./" : "");
    bytes_add_text(to, path);
    bytes_text(to);
}

/* Adds a file that the library gets under this name. */
static bool add_file(struct schema_files *files, const struct bytes *name, const char *path) {
    if (files->count == files->capacity) {
        size_t capacity = files->capacity == 0 ? 8 : 2 * files->capacity;
        struct schema_file *list = realloc(files->list, capacity * sizeof *list);
        if (list == NULL) {
            return files_without_memory(files);
        }
        files->list = list;
        files->capacity = capacity;
    }
    struct schema_file *file = &files->list[files->count++];
    *file = (struct schema_file){NO_BYTES, NO_BYTES, NO_BYTES, NO_BYTES, {NULL, 0, 0}, NO_BYTES};
    add_bytes(&file->name, name);
    add_path(&file->path, path);
    return file->name.failed || file->path.failed ? files_without_memory(files) : true;
}

/* How many bytes a file may have, as its first bytes say. One in the XML syntax has more than what is written of it. A file in the compact syntax begins
 * neither with a `<` nor with the bytes of UTF-16 and UTF-32. */
static size_t most_of(const struct bytes *content) {
    size_t at = mark_length(content->data, content->length);
    while (at < content->length && strchr(" \t\r\n", content->data[at]) != NULL && content->data[at] != '\0') {
        at++;
    }
    unsigned char first = at < content->length ? (unsigned char)content->data[at] : 'a';
    return first == '<' || first >= 0xFE || first == 0 ? MOST_XML_BYTES : MOST_BYTES;
}

/* Reads the file, but at most one byte more than a file may have, and drops its byte order mark. */
static bool read_content(struct schema_files *files, struct schema_file *file) {
    struct fault fault = NO_FAULT;
    struct source source;
    size_t length = 1;
    bool is_open = source_open(&source, bytes_text(&file->path), (struct streams){false, false}, &fault);
    bool is_good = is_open && bytes_reserve(&file->content, 4096);
    while (is_good && length > 0 && file->content.length <= most_of(&file->content) + MARK_BYTES) {
        size_t room = most_of(&file->content) + MARK_BYTES + 1 - file->content.length;
        size_t wanted = room < 65536 ? room : 65536;
        is_good = bytes_reserve(&file->content, wanted) &&
                  source_read(&source, file->content.data + file->content.length, wanted, &length, &fault);
        file->content.length += is_good ? length : 0;
    }
    if (is_good) {
        bytes_cut_front(&file->content, mark_length(file->content.data, file->content.length));
    } else if (fault.kind != FAULT_DEVICE) {
        files_without_memory(files);
    } else {
        struct bytes line = NO_BYTES;
        bytes_format(&line, "cannot read file %s: %s", bytes_text(&file->path), bytes_text(&fault.what));
        files_problem(files, STATUS_FAILED, &line);
        bytes_free(&line);
    }
    if (is_open) {
        source_close(&source);
    }
    fault_free(&fault);
    return is_good;
}

/* Whether the text ends in the word, after something. */
static bool ends_in(struct span text, const char *word) {
    size_t length = strlen(word);
    return text.length > length && memcmp(text.data + text.length - length, word, length) == 0;
}

/* Adds the counts of a line `N datatypes loosened, see ..`, `N datatypes tightened, see ..` or `N ID-types marked, see ..`. Each may be followed by others. */
static void add_changes(struct schema_files *files, struct span line) {
    const char *end = line.data + line.length;
    for (const char *at = line.data; at < end && *at >= '0' && *at <= '9';) {
        unsigned long long count = 0;
        for (; at < end && *at >= '0' && *at <= '9'; at++) {
            count = count < 100000000 ? count * 10 + (unsigned long long)(*at - '0') : count;
        }
        const char *comma = memchr(at, ',', (size_t)(end - at));
        const char *last = comma == NULL ? end : comma;
        struct span what = {at, (size_t)(last - at)};
        unsigned long long *total = ends_in(what, "tightened") ? &files->tightened : ends_in(what, "marked") ? &files->marked : &files->loosened;
        *total += count;
        at = comma == NULL ? end : comma + 1 + (comma + 1 < end && comma[1] == ' ');
    }
}

/* Adds how many datatypes were changed in the file, as rncv-profile writes into it. */
static void take_changes(struct schema_files *files, struct span content) {
    static const char mark[] = "# rncv-profile: ";
    const char *end = content.data + content.length;
    for (const char *line = content.data; line != NULL && line < end;) {
        const char *feed = memchr(line, '\n', (size_t)(end - line));
        size_t length = (size_t)((feed == NULL ? end : feed) - line);
        length -= length > 0 && line[length - 1] == '\r';
        if (length > sizeof mark && memcmp(line, mark, sizeof mark - 1) == 0) {
            add_changes(files, (struct span){line + sizeof mark - 1, length - (sizeof mark - 1)});
        }
        line = feed == NULL ? NULL : feed + 1;
    }
}

static const char *mapped(const struct schema_request *request, const struct bytes *words) {
    for (size_t at = 0; at < request->mapping_count; at++) {
        const struct mapping *mapping = &request->mappings[at];
        if (mapping->href_length == words->length && memcmp(mapping->href, words->data, words->length) == 0) {
            return mapping->file;
        }
    }
    return NULL;
}

static bool is_given(const struct schema_request *request, const struct bytes *words) {
    for (size_t at = 1; at < request->given_count; at++) {
        if (strlen(request->given[at]) == words->length && memcmp(request->given[at], words->data, words->length) == 0) {
            return true;
        }
    }
    return false;
}

/* Takes one more file that the words may mean. False: they may mean two, and the problem is noted. */
static bool add_candidate(struct collecting *collecting, struct meaning *meaning, const char *path) {
    if (meaning->file.length == 0) {
        add_path(&meaning->file, path);
        return meaning->file.failed ? files_without_memory(collecting->files) : true;
    }
    if (is_same(bytes_text(&meaning->file), path)) {
        return true;
    }
    struct bytes line = NO_BYTES;
    struct schema_file *by = &collecting->files->list[meaning->by];
    bytes_format(&line, "'%s' in %s may be %s or %s", bytes_text(&meaning->words), bytes_text(&by->path), bytes_text(&meaning->file), path);
    files_problem(collecting->files, STATUS_REFUSED, &line);
    bytes_free(&line);
    return false;
}

static bool try_path(struct collecting *collecting, struct meaning *meaning, const char *path) {
    return !is_file(path) || add_candidate(collecting, meaning, path);
}

/* Takes the file that the catalogs have for a URI, if there is one. False: there is a problem. */
static bool ask_catalogs(struct collecting *collecting, struct meaning *meaning) {
    struct schema_files *files = collecting->files;
    struct bytes path = NO_BYTES;
    struct bytes where = NO_BYTES;
    struct fault fault = NO_FAULT;
    bool is_good = catalogs_find(collecting->request->catalogs, (struct span){meaning->words.data, meaning->words.length}, &path, &where, &fault);
    if (is_good && path.length > 0) {
        const char *text = bytes_text(&path);
        is_good = path.failed ? files_without_memory(files) : add_candidate(collecting, meaning, text);
    } else if (!is_good && fault.kind == FAULT_MEMORY) {
        files_without_memory(files);
    } else if (!is_good) {
        struct bytes line = NO_BYTES;
        add_shown(&line, fault.what.data, fault.what.length, SIZE_MAX);
        add_path(&files->problem_path, bytes_text(&where));
        files->problem_place = fault.place;
        line.failed |= where.failed || files->problem_path.failed;
        files_problem(files, fault.kind == FAULT_DEVICE ? STATUS_FAILED : STATUS_REFUSED, &line);
        bytes_free(&line);
    }
    bytes_free(&path);
    bytes_free(&where);
    fault_free(&fault);
    return is_good;
}

bool files_are_too_many(const struct collecting *collecting) {
    return collecting->files->count > MOST_FILES;
}

bool count_mention(struct collecting *collecting, size_t by) {
    struct schema_files *files = collecting->files;
    if (++collecting->mentions <= MOST_MENTIONS) {
        return true;
    }
    struct bytes line = NO_BYTES;
    bytes_add_text(&line, "more than 8,192 mentions of files: outside the profile");
    add_path(&files->problem_path, bytes_text(&files->list[by].path));
    line.failed |= files->problem_path.failed;
    files_problem(files, STATUS_REFUSED, &line);
    bytes_free(&line);
    return false;
}

bool find_meaning(struct collecting *collecting, struct meaning *meaning) {
    const char *file = mapped(collecting->request, &meaning->words);
    struct ways ways;
    struct bytes normal = NO_BYTES;
    if (file != NULL) {
        return add_candidate(collecting, meaning, file);
    }
    if (collecting->request->catalogs != NULL && is_remote(&meaning->words) && !ask_catalogs(collecting, meaning)) {
        return false;
    }
    bool is_good = ways_of(&ways, &meaning->words, bytes_text(&collecting->files->list[meaning->by].path)) || files_without_memory(collecting->files);
    for (size_t at = 0; at < ways.count && is_good; at++) {
        const char *way = bytes_text(&ways.list[at]);
        add_normal(&normal, way);
        const char *shorter = bytes_text(&normal);
        is_good = normal.failed ? files_without_memory(collecting->files)
                                : try_path(collecting, meaning, way) && try_path(collecting, meaning, shorter);
    }
    if (is_good && is_given(collecting->request, &meaning->words)) {
        const char *words = bytes_text(&meaning->words);
        is_good = meaning->words.failed ? files_without_memory(collecting->files) : try_path(collecting, meaning, words);
    }
    /* a path that was cut short by that would be another one */
    bool has_failed = meaning->words.failed || meaning->file.failed || ways.list[0].failed || ways.list[1].failed || normal.failed;
    ways_free(&ways);
    bytes_free(&normal);
    return has_failed ? files_without_memory(collecting->files) : is_good;
}

const struct bytes *schema_file_written(const struct schema_file *file) {
    return file->original.length > 0 ? &file->original : &file->content;
}

const struct bytes *schema_file_handed(const struct schema_file *file) {
    return file->merged.length > 0 ? &file->merged : &file->content;
}

bool keep_missing(struct collecting *collecting, const struct meaning *meaning, struct place place) {
    struct missing *missing = &collecting->files->missing;
    struct schema_file *by = &collecting->files->list[meaning->by];
    struct ways ways;
    if (missing->is_there) {
        return true;
    }
    missing->is_there = true;
    missing->place = place;
    add_bytes(&missing->name, &meaning->words);
    add_path(&missing->path, bytes_text(&by->path));
    bool is_good = ways_of(&ways, &meaning->words, bytes_text(&by->path));
    if (ways.count > 0) {
        add_normal(&missing->sought, bytes_text(&ways.list[ways.count - 1]));
    }
    ways_free(&ways);
    bytes_text(&missing->name); /* the room for a zero after each */
    bytes_text(&missing->sought);
    is_good = is_good && !missing->name.failed && !missing->path.failed && !missing->sought.failed;
    return is_good || files_without_memory(collecting->files);
}

/* Adds what the words mean, for a line. */
static void add_meaning(struct bytes *line, struct collecting *collecting, struct meaning *meaning) {
    struct schema_file *by = &collecting->files->list[meaning->by];
    bytes_format(line, "'%s' in %s is %s", bytes_text(&meaning->words), bytes_text(&by->path),
                 meaning->file.length == 0 ? "no file" : bytes_text(&meaning->file));
}

/* Whether the words mean one file here and another elsewhere. If so, notes the problem. */
static bool is_two_files(struct collecting *collecting, struct meaning *meaning, struct meaning *before) {
    bool is_one = (meaning->file.length == 0) == (before->file.length == 0) &&
                  (meaning->file.length == 0 || is_same(bytes_text(&meaning->file), bytes_text(&before->file)));
    if (is_one) {
        return false;
    }
    struct bytes line = NO_BYTES;
    add_meaning(&line, collecting, before);
    bytes_add_text(&line, " and ");
    add_meaning(&line, collecting, meaning);
    bytes_format(&line, ": one name is one file; write one of them as './%s'", bytes_text(&meaning->words));
    files_problem(collecting->files, STATUS_REFUSED, &line);
    bytes_free(&line);
    return true;
}

bool keep_meaning(struct collecting *collecting, const struct meaning *meaning) {
    if (collecting->count == collecting->capacity) {
        size_t capacity = collecting->capacity == 0 ? 16 : 2 * collecting->capacity;
        struct meaning *meanings = realloc(collecting->meanings, capacity * sizeof *meanings);
        if (meanings == NULL) {
            return files_without_memory(collecting->files);
        }
        collecting->meanings = meanings;
        collecting->capacity = capacity;
    }
    struct meaning *kept = &collecting->meanings[collecting->count++];
    *kept = (struct meaning){NO_BYTES, NO_BYTES, meaning->by};
    add_bytes(&kept->words, &meaning->words);
    add_bytes(&kept->file, &meaning->file);
    return kept->words.failed || kept->file.failed ? files_without_memory(collecting->files) : true;
}

bool hand_in(struct collecting *collecting, struct meaning *meaning) {
    struct schema_files *files = collecting->files;
    const char *path = bytes_text(&meaning->file);
    if (is_equal(&files->list[0].name, &meaning->words) && !is_same(bytes_text(&files->list[0].path), path)) {
        struct bytes name = NO_BYTES;
        bytes_add_byte(&name, '\x01');
        add_bytes(&name, &files->list[0].name);
        bytes_free(&files->list[0].name);
        files->list[0].name = name;
        if (name.failed) {
            return files_without_memory(files);
        }
    }
    for (size_t at = 0; at < files->count; at++) {
        if (is_equal(&files->list[at].name, &meaning->words)) {
            /* a file that is given by these words and does not exist is taken from beside the file that mentions it */
            if (at > 0 && !is_same(bytes_text(&files->list[at].path), path)) {
                bytes_clear(&files->list[at].path);
                add_path(&files->list[at].path, path);
            }
            return files->list[at].path.failed ? files_without_memory(files) : true;
        }
    }
    return add_file(files, &meaning->words, path);
}

/* Reads the literal that begins with the token, with its joined segments. `token` is then the token after it. */
static void read_literal(struct tokens *tokens, struct token *token, struct bytes *literal) {
    for (;;) {
        add_literal(literal, token);
        *token = tokens_next(tokens);
        if (!is_sign(token, '~')) {
            return;
        }
        *token = tokens_next(tokens);
        if (token->kind != TOKEN_LITERAL) {
            return;
        }
    }
}

/* Where the tokens mention these words first; 0 if that is not found. In annotations nothing is a mention. False: out of memory. */
static bool find_words(struct tokens *tokens, const struct bytes *words, size_t *at) {
    long depth = 0;
    bool is_mention = false;
    bool is_good = true;
    bool is_found = false;
    for (struct token token = tokens_next(tokens); token.kind != TOKEN_NONE && is_good && !is_found;) {
        struct bytes literal = NO_BYTES;
        size_t here = token.at;
        if (token.kind == TOKEN_LITERAL) {
            read_literal(tokens, &token, &literal);
            is_good = !literal.failed;
            is_found = is_mention && is_equal(&literal, words);
            *at = is_found ? here : 0;
            is_mention = false;
        } else {
            depth += is_sign(&token, '[') - is_sign(&token, ']');
            is_mention = depth == 0 && (is_word(&token, "include") || is_word(&token, "external"));
            token = tokens_next(tokens);
        }
        bytes_free(&literal);
    }
    return is_good;
}

/* The place of a mention, for a message. The library says what a file mentions, and not where. False: out of memory. */
static bool mention_place(struct schema_files *files, const struct meaning *meaning, struct place *place) {
    const struct schema_file *by = &files->list[meaning->by];
    const struct bytes *written = schema_file_written(by);
    struct tokens tokens;
    size_t at = 0;
    bool is_good = tokens_open(&tokens, by->content.data, by->content.length) && find_words(&tokens, &meaning->words, &at);
    tokens_close(&tokens);
    *place = place_at(written->data, written->length, NULL, at);
    return is_good || files_without_memory(files);
}

/* Notes that a file in the compact syntax mentions others, which get no plain names. */
static bool refuse_mention(struct collecting *collecting, const struct meaning *meaning) {
    struct schema_files *files = collecting->files;
    struct bytes line = NO_BYTES;
    if (!mention_place(files, meaning, &files->problem_place)) {
        return false;
    }
    bytes_add_text(&line, "this file is in the compact syntax, and mentions others: it is not copied");
    add_path(&files->problem_path, bytes_text(&files->list[meaning->by].path));
    line.failed |= files->problem_path.failed;
    files_problem(files, STATUS_REFUSED, &line);
    bytes_free(&line);
    return false;
}

/* Takes one mention. */
static bool take_mention(struct collecting *collecting, struct meaning *meaning) {
    struct place place;
    if (meaning->words.failed) {
        return files_without_memory(collecting->files);
    }
    if (collecting->request->is_flat) {
        return refuse_mention(collecting, meaning);
    }
    if (files_are_too_many(collecting)) {
        return true; /* the library refuses the files */
    }
    if (!count_mention(collecting, meaning->by) || !find_meaning(collecting, meaning)) {
        return false;
    }
    for (size_t index = 0; index < collecting->count; index++) {
        if (is_equal(&collecting->meanings[index].words, &meaning->words)) {
            return !is_two_files(collecting, meaning, &collecting->meanings[index]);
        }
    }
    if (!keep_meaning(collecting, meaning)) {
        return false;
    }
    if (meaning->file.length > 0) {
        return hand_in(collecting, meaning);
    }
    if (collecting->files->missing.is_there) {
        return true; /* its place would be looked for in vain */
    }
    return mention_place(collecting->files, meaning, &place) && keep_missing(collecting, meaning, place);
}

/* Asks the library for the names that a file mentions. Each has a zero after it, and all are never longer than the file. */
static int32_t ask_mentions(const struct bytes *content, struct bytes *names) {
    const uint8_t *bytes = (const uint8_t *)(content->data == NULL ? "" : content->data);
    rncv_fault fault;
    if (!bytes_reserve(names, content->length + 1)) {
        return RNCV_MEMORY;
    }
    int32_t status = rncv_mentions(bytes, content->length, (uint8_t *)names->data, content->length, &names->length, &fault);
    names->length = status == RNCV_DONE ? names->length : 0;
    return status;
}

/* Takes what the file mentions. One that breaks a clause by itself mentions nothing, since the library refuses it. */
static bool take_mentions(struct collecting *collecting, size_t index) {
    struct bytes names = NO_BYTES;
    int32_t status = ask_mentions(&collecting->files->list[index].content, &names);
    bool is_good = status == RNCV_DONE || status == RNCV_REFUSED || files_without_memory(collecting->files);
    for (size_t at = 0; at < names.length && is_good;) {
        struct meaning meaning = {NO_BYTES, NO_BYTES, index};
        size_t length = strlen(names.data + at);
        bytes_add(&meaning.words, names.data + at, length);
        is_good = take_mention(collecting, &meaning);
        bytes_free(&meaning.words);
        bytes_free(&meaning.file);
        at += length + 1;
    }
    bytes_free(&names);
    return is_good;
}

/* Whether the name with a prefix may be that of a datatype of IDs. */
static bool is_id_name(struct span name) {
    return ends_in(name, ":ID") || ends_in(name, ":IDREF") || ends_in(name, ":IDREFS");
}

/* Whether the name with a prefix may be that of a datatype that depends on the document. */
static bool is_context_name(struct span name) {
    return ends_in(name, ":QName") || ends_in(name, ":NOTATION") || ends_in(name, ":ENTITY") || ends_in(name, ":ENTITIES");
}

/* Notes whether the text names a datatype of IDs, or one that depends on the document. False: out of memory. */
static bool take_names(struct schema_files *files, const char *text, size_t length) {
    struct tokens tokens;
    bool is_good = tokens_open(&tokens, text, length) || files_without_memory(files);
    for (struct token token = is_good ? tokens_next(&tokens) : (struct token){.kind = TOKEN_NONE}; token.kind != TOKEN_NONE; token = tokens_next(&tokens)) {
        files->names_ids |= token.kind == TOKEN_NAME && is_id_name(token.text);
        files->names_context |= token.kind == TOKEN_NAME && is_context_name(token.text);
    }
    tokens_close(&tokens);
    return is_good;
}

/* Says that the file is XML and no schema, and if it is the main file, that the schema comes first. */
static void add_document(struct bytes *line, const struct collecting *collecting, size_t index) {
    bytes_add_text(line, "this is an XML document and no schema");
    if (index == 0) {
        const char *later = collecting->request->later;
        bytes_add_text(line, ": the schema comes first");
        if (later != NULL) {
            bytes_add_text(line, "; the words are swapped (");
            add_shown(line, later, strlen(later), SIZE_MAX);
            bytes_add_text(line, " comes after it)");
        }
    }
}

/* Notes what a file is that is no schema in UTF-8, in the compact syntax or in the XML syntax. */
static bool refuse_writing(struct collecting *collecting, size_t index, enum writing writing) {
    struct schema_file *file = &collecting->files->list[index];
    struct bytes line = NO_BYTES;
    if (writing == WRITING_UTF_16) {
        bytes_add_text(&line, "this is UTF-16; rncv-xml reads schemas in UTF-8 (iconv -f UTF-16 -t UTF-8 converts it)");
    } else if (writing == WRITING_XML_SCHEMA) {
        bytes_add_text(&line, "this is a W3C XML Schema; rncv-xml reads RELAX NG");
    } else {
        add_document(&line, collecting, index);
    }
    add_path(&collecting->files->problem_path, bytes_text(&file->path));
    line.failed |= collecting->files->problem_path.failed;
    files_problem(collecting->files, STATUS_REFUSED, &line);
    bytes_free(&line);
    return false;
}

/* Writes blanks over annotations that the library does not have. */
static bool blank_annotations(struct schema_files *files, struct schema_file *file) {
    struct annotations found = {false, NULL, 0};
    add_bytes(&file->original, &file->content);
    bool is_good = !file->original.failed && annotations_blank(file->content.data, file->content.length, &found);
    if (!found.is_changed) {
        bytes_free(&file->original);
    }
    return is_good || files_without_memory(files);
}

/* Whether the file is to be read as a schema in the XML syntax: by the namespace of its root, or by its name. */
static bool is_in_xml(struct schema_file *file, enum writing writing) {
    bool is_named = file->path.length > 4 && memcmp(file->path.data + file->path.length - 4, ".rng", 4) == 0;
    return writing == WRITING_RELAX_NG || (is_named && writing == WRITING_XML);
}

/* Takes what a file in the compact syntax mentions. From a file that is too large it takes nothing: the library refuses it. */
static bool take_compact(struct collecting *collecting, size_t index) {
    struct schema_files *files = collecting->files;
    struct schema_file *file = &files->list[index];
    if (file->content.length > MOST_BYTES) {
        return true;
    }
    take_changes(files, (struct span){file->content.data, file->content.length});
    return blank_annotations(files, file) && take_names(files, file->content.data, file->content.length) && take_mentions(collecting, index);
}

/* Takes what a file that was written names, and what rncv-profile says in it. */
static bool take_written(struct schema_files *files, size_t index) {
    const struct bytes *content = &files->list[index].content;
    return schema_files_take_text(files, content->data, content->length);
}

/* Reads a file, and takes what it mentions. */
static bool take_file(struct collecting *collecting, size_t index) {
    struct schema_file *file = &collecting->files->list[index];
    enum writing writing;
    if (!read_content(collecting->files, file)) {
        return false;
    }
    if (!writing_of(file->content.data, file->content.length, &writing)) {
        return files_without_memory(collecting->files);
    }
    if (is_in_xml(file, writing)) {
        return take_xml(collecting, index) && take_written(collecting->files, index);
    }
    return writing == WRITING_COMPACT ? take_compact(collecting, index) : refuse_writing(collecting, index, writing);
}

/* Adds the files that are given, by their own names. A file whose name is not UTF-8 gets a name that no file can mention. */
static bool add_given(struct schema_files *files, const struct schema_request *request) {
    bool is_good = true;
    for (size_t at = 0; at < request->given_count && is_good; at++) {
        const char *path = request->given[at];
        struct bytes name = NO_BYTES;
        if (request->is_flat) {
            add_flat_name(&name, files, path);
        } else if (is_utf_8(path, strlen(path))) {
            bytes_add_text(&name, path);
        } else {
            bytes_format(&name, "\x01%zu", at);
        }
        is_good = name.failed ? files_without_memory(files) : add_file(files, &name, path);
        bytes_free(&name);
    }
    return is_good;
}

static bool refuse_many(struct schema_files *files) {
    struct bytes line = NO_BYTES;
    bytes_add_text(&line, "the schema has more than 1,024 files: outside the profile");
    add_path(&files->problem_path, bytes_text(&files->list[0].path));
    line.failed |= files->problem_path.failed;
    files_problem(files, STATUS_REFUSED, &line);
    bytes_free(&line);
    return false;
}

/* Writes some files into others, if there are too many. */
static bool merge(struct schema_files *files, const struct schema_request *request) {
    return schema_files_merge(files, request->most == 0 ? MOST_HANDED : request->most);
}

bool schema_files_collect(struct schema_files *files, const struct schema_request *request) {
    struct collecting collecting = {files, request, NULL, 0, 0, 0};
    memset(files, 0, sizeof *files);
    bool is_good = add_given(files, request);
    for (size_t at = 0; is_good && at < files->count && at <= MOST_FILES; at++) {
        is_good = take_file(&collecting, at);
    }
    files->handed = files->count;
    is_good = is_good && (files_are_too_many(&collecting) ? refuse_many(files) : request->is_flat || merge(files, request));
    for (size_t at = 0; at < collecting.count; at++) {
        bytes_free(&collecting.meanings[at].words);
        bytes_free(&collecting.meanings[at].file);
    }
    free(collecting.meanings);
    return is_good && !files->failed;
}

bool schema_files_take_text(struct schema_files *files, const char *text, size_t length) {
    take_changes(files, (struct span){text, length});
    return take_names(files, text, length);
}

int64_t schema_files_column(const struct schema_files *files, const rncv_fault *fault) {
    bool has_place = fault->offset >= 0 && fault->file >= 0 && (uint64_t)fault->file < files->count;
    const struct bytes *original = has_place ? &files->list[fault->file].original : NULL;
    bool is_blanked = original != NULL && original->length > 0;
    return is_blanked ? (int64_t)place_at(original->data, original->length, NULL, (size_t)fault->offset).column : fault->column;
}

int32_t schema_files_compile(const struct schema_files *files, uint32_t datatypes, rncv_schema *schema, rncv_fault *fault) {
    rncv_file *list = calloc(files->handed, sizeof *list);
    if (list == NULL) {
        return RNCV_MEMORY;
    }
    for (size_t at = 0; at < files->handed; at++) {
        const struct schema_file *file = &files->list[at];
        const struct bytes *handed = schema_file_handed(file);
        const char *text = handed->data == NULL ? "" : handed->data;
        list[at] = (rncv_file){(const uint8_t *)file->name.data, file->name.length, (const uint8_t *)text, handed->length};
    }
    int32_t status = files->is_judged ? RNCV_REFUSED : rncv_compile_with(list, files->handed, datatypes, schema, fault);
    free(list);
    if (files->is_judged) {
        *fault = files->judged;
    }
    if (status == RNCV_REFUSED) {
        fault->column = schema_files_column(files, fault);
    }
    return status;
}

void schema_files_forget(struct schema_files *files) {
    for (size_t at = 0; at < files->count; at++) {
        bytes_free(&files->list[at].content);
        bytes_free(&files->list[at].original);
        bytes_free(&files->list[at].merged);
    }
}

void schema_files_free(struct schema_files *files) {
    for (size_t at = 0; at < files->count; at++) {
        bytes_free(&files->list[at].name);
        bytes_free(&files->list[at].path);
        bytes_free(&files->list[at].content);
        bytes_free(&files->list[at].original);
        bytes_free(&files->list[at].merged);
        origins_free(&files->list[at].origins);
    }
    free(files->list);
    bytes_free(&files->missing.path);
    bytes_free(&files->missing.name);
    bytes_free(&files->missing.sought);
    bytes_free(&files->problem);
    bytes_free(&files->problem_path);
    bytes_free(&files->notes);
    memset(files, 0, sizeof *files);
}
