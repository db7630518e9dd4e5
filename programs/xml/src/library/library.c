/* The library over the parts of rncv-xml. */
#include "rncv_xml.h"

#include "alone_schema.h"
#include "clause_page.h"
#include "judging.h"
#include "paths.h"
#include "schema_annotations.h"
#include "schema_datatypes.h"
#include "schema_files.h"
#include "schema_hints.h"
#include "schema_ids.h"
#include "schema_tokens.h"

#include <errno.h>
#include <fcntl.h>
#include <inttypes.h>
#include <stdlib.h>
#include <string.h>
#include <unistd.h>

/* What all judges by one schema have in common. The last one frees it. */
struct common {
    atomic_size_t owners;
    struct id_types *ids; /* the attributes with an ID-type; NULL: there are none */
    struct bytes unsound; /* why they are not checked; empty if they are */
    uint32_t datatypes;   /* that the schema was compiled with */
    struct alone_schemas alone; /* for hints, .. */
    bool has_alone;       /* .. if they are there */
};

/* What a judge's handle holds. */
struct held {
    struct common *common;
    struct shared shared; /* `schema` is for making other judges */
    struct judge judge;
    struct answer answer; /* the last one */
    struct bytes notes;   /* its notes, as lines */
    bool is_busy;         /* a document is being judged */
};

/* What a handle of files holds. */
struct found {
    struct schema_files files;
    rncv_file *list;
    const char **paths;
};

/* A document that is being read. */
struct reading {
    int file;
    int error;
    struct span left;
    rncv_xml_read read;
    void *context;
};

/* Whether the number is a set of datatypes. */
static bool is_set(uint32_t datatypes) {
    return datatypes == RNCV_DATATYPES_PROFILE || datatypes == RNCV_DATATYPES_XML_SCHEMA;
}

static void no_tick(void *context) {
    (void)context;
}

static void common_let_go(struct common *common) {
    if (common == NULL || atomic_fetch_sub(&common->owners, 1) > 1) {
        return;
    }
    if (common->has_alone) {
        alone_schemas_close(&common->alone);
    }
    schema_ids_free(common->ids);
    bytes_free(&common->unsound);
    free(common);
}

/* Begins with a schema, and reads its ID-types. NULL: out of memory. */
static struct common *common_of(rncv_schema *schema, uint32_t datatypes, const struct schema_files *files) {
    struct common *common = calloc(1, sizeof *common);
    if (common == NULL) {
        return NULL;
    }
    atomic_init(&common->owners, 1);
    common->datatypes = datatypes;
    common->has_alone = alone_schemas_open(&common->alone, datatypes);
    if (!schema_ids_read(schema, files, &common->ids, &common->unsound)) {
        common_let_go(common);
        return NULL;
    }
    return common;
}

static void held_free(struct held *held) {
    if (held != NULL) {
        judge_close(&held->judge);
        rncv_schema_free(&held->shared.schema);
        answer_free(&held->answer);
        bytes_free(&held->notes);
        common_let_go(held->common);
        free(held);
    }
}

/* Makes a judge and puts it into the handle. Owns `common`, even if it fails. */
static int32_t hold(rncv_schema *schema, struct common *common, rncv_xml_judge *judge) {
    struct held *held = calloc(1, sizeof *held);
    if (held == NULL) {
        common_let_go(common);
        return RNCV_MEMORY;
    }
    held->common = common;
    held->answer = (struct answer)NO_ANSWER;
    held->shared.page = CLAUSE_PAGE;
    held->shared.wants_earlier = true;
    held->shared.ids = common->ids;
    held->shared.datatypes = common->datatypes;
    held->shared.alone = common->has_alone ? &common->alone : NULL;
    held->shared.tick = no_tick;
    atomic_init(&held->shared.bytes_read, 0);
    int32_t status = rncv_schema_share(schema, &held->shared.schema);
    if (status == RNCV_DONE && !judge_open(&held->judge, &held->shared)) {
        status = RNCV_MEMORY;
    }
    if (status == RNCV_DONE) {
        held_free(judge->hidden);
        judge->hidden = held;
    } else {
        held_free(held);
    }
    return status;
}

static bool is_busy(const rncv_xml_judge *judge) {
    const struct held *held = judge->hidden;
    return held != NULL && held->is_busy;
}

/* The bytes as a text of the caller's; NULL: out of memory. */
static char *taken(struct bytes *bytes) {
    bytes_add_byte(bytes, '\0');
    if (bytes->failed) {
        bytes_free(bytes);
    }
    char *text = bytes->data;
    *bytes = (struct bytes)NO_BYTES;
    return text;
}

static void add_text(struct bytes *to, struct bytes *from) {
    bytes_add(to, from->data, from->length);
}

void rncv_xml_fault_free(rncv_xml_fault *fault) {
    if (fault != NULL) {
        free(fault->path);
        free(fault->message);
        free(fault->missing);
        *fault = (rncv_xml_fault)RNCV_XML_NO_FAULT;
    }
}

static void found_free(struct found *found) {
    schema_files_free(&found->files);
    free(found->list);
    free(found->paths);
    free(found);
}

void rncv_xml_files_free(rncv_xml_files *files) {
    if (files != NULL && files->hidden != NULL) {
        found_free(files->hidden);
    }
    if (files != NULL) {
        *files = (rncv_xml_files)RNCV_XML_NO_FILES;
    }
}

/* Lists the files for rncv_compile. */
static bool list(struct found *found, rncv_xml_files *files) {
    size_t count = found->files.handed;
    found->list = calloc(count, sizeof *found->list);
    found->paths = calloc(count, sizeof *found->paths);
    for (size_t at = 0; found->list != NULL && found->paths != NULL && at < count; at++) {
        struct schema_file *file = &found->files.list[at];
        const struct bytes *handed = schema_file_handed(file);
        const char *text = handed->data == NULL ? "" : handed->data;
        found->list[at] = (rncv_file){(const uint8_t *)bytes_text(&file->name), file->name.length, (const uint8_t *)text, handed->length};
        found->paths[at] = bytes_text(&file->path);
    }
    *files = (rncv_xml_files){found->list, found->paths, count, found};
    return found->list != NULL && found->paths != NULL;
}

/* The status for files that were not collected. */
static int32_t status_of_problem(struct schema_files *files, rncv_xml_fault *fault) {
    int32_t status = files->failed ? RNCV_MEMORY : files->problem_status == STATUS_REFUSED ? RNCV_REFUSED : RNCV_XML_UNREAD;
    if (!files->failed) {
        fault->path = taken(&files->problem_path);
        fault->message = taken(&files->problem);
        fault->line = files->problem_place.line;
        fault->column = files->problem_place.column;
    }
    return status;
}

/* Copies the mappings for the files. NULL: a text is NULL, and `status` says so, or memory ran out. */
static struct mapping *mapped(const rncv_xml_mapping *mappings, size_t count, int32_t *status) {
    struct mapping *copies = calloc(count + 1, sizeof *copies);
    *status = copies == NULL ? RNCV_MEMORY : RNCV_DONE;
    for (size_t at = 0; copies != NULL && at < count && *status == RNCV_DONE; at++) {
        if (mappings[at].href == NULL || mappings[at].path == NULL) {
            *status = RNCV_MISUSE;
        } else {
            copies[at] = (struct mapping){mappings[at].href, strlen(mappings[at].href), mappings[at].path};
        }
    }
    return copies;
}

/* Collects the files that the request asks for. */
static int32_t collect(const struct schema_request *request, rncv_xml_files *files, rncv_xml_fault *fault) {
    struct found *found = calloc(1, sizeof *found);
    if (found == NULL) {
        return RNCV_MEMORY;
    }
    rncv_xml_files fresh = RNCV_XML_NO_FILES;
    int32_t status = RNCV_DONE;
    if (!schema_files_collect(&found->files, request)) {
        status = status_of_problem(&found->files, fault);
    } else if (!list(found, &fresh)) {
        status = RNCV_MEMORY;
    }
    if (status == RNCV_DONE) {
        rncv_xml_files_free(files);
        *files = fresh;
    } else {
        found_free(found);
    }
    return status;
}

int32_t rncv_xml_files_find(const char *path, const rncv_xml_mapping *mappings, size_t count, rncv_xml_files *files, rncv_xml_fault *fault) {
    if (path == NULL || files == NULL || (mappings == NULL && count > 0)) {
        return RNCV_MISUSE;
    }
    /* for the program this name is standard input */
    const char *given = strcmp(path, "-") == 0 ? "./-" : path;
    rncv_xml_fault found = RNCV_XML_NO_FAULT;
    int32_t status;
    struct mapping *copies = mapped(mappings, count, &status);
    if (status == RNCV_DONE) {
        struct schema_request request = {&given, 1, copies, count, NULL, NULL, false, false, 0};
        status = collect(&request, files, &found);
    }
    free(copies);
    if (fault == NULL || status == RNCV_MISUSE) {
        rncv_xml_fault_free(&found);
    } else {
        rncv_xml_fault_free(fault); /* not before: the path and the mappings may be its texts */
        *fault = found;
    }
    return status;
}

int32_t rncv_xml_annotations_blank(void *bytes, size_t length, int32_t *changed) {
    if (changed == NULL || (bytes == NULL && length > 0)) {
        return RNCV_MISUSE;
    }
    size_t mark = length > 0 ? mark_length(bytes, length) : 0;
    struct annotations found = {false, NULL, 0};
    bool is_good = length == mark || annotations_blank((char *)bytes + mark, length - mark, &found);
    *changed = found.is_changed;
    return is_good ? RNCV_DONE : RNCV_MEMORY;
}

/* Whether the names and the texts of the files are there. */
static bool are_there(const rncv_file *files, size_t count) {
    bool is_good = files != NULL || count == 0;
    for (size_t at = 0; at < count && is_good; at++) {
        is_good = (files[at].name != NULL || files[at].name_length == 0) && (files[at].bytes != NULL || files[at].length == 0);
    }
    return is_good;
}

/* The files as the search for a hint takes them. NULL: out of memory. */
static struct schema_hint_file *hint_files(const rncv_file *files, const char *const *paths, size_t count) {
    struct schema_hint_file *list = calloc(count, sizeof *list);
    for (size_t at = 0; list != NULL && at < count; at++) {
        const rncv_file *file = &files[at];
        const char *name = file->name == NULL ? "" : (const char *)file->name;
        list[at] = (struct schema_hint_file){name, file->name_length, (const char *)file->bytes, file->length, paths == NULL ? NULL : paths[at], NULL};
    }
    return list;
}

/* Looks for a hint in the list, and frees the list. */
static void find_hint(struct schema_hint_file *list, size_t count, int32_t clause, uint32_t datatypes, rncv_xml_hint *hint) {
    _Static_assert(RNCV_XML_HINT_BYTES == SCHEMA_HINT_BYTES, "a text fits");
    _Static_assert((int)SCHEMA_HINT_PROFILE == (int)RNCV_DATATYPES_PROFILE, "sets are the same");
    _Static_assert((int)SCHEMA_HINT_XML_SCHEMA == (int)RNCV_DATATYPES_XML_SCHEMA, "sets are the same");
    struct schema_hint found;
    hint->file = 0;
    hint->line = 0;
    hint->column = 0;
    hint->text[0] = '\0';
    if (list != NULL && schema_hint_find(list, count, clause, datatypes, &found)) {
        hint->file = found.file;
        hint->line = found.line;
        hint->column = found.column;
        memcpy(hint->text, found.text, strlen(found.text) + 1);
    }
    free(list);
}

int32_t rncv_xml_hint_find_with(const rncv_file *files, const char *const *paths, size_t count, int32_t clause, uint32_t datatypes, rncv_xml_hint *hint) {
    if (count == 0 || !are_there(files, count) || hint == NULL || !is_set(datatypes)) {
        return RNCV_MISUSE;
    }
    find_hint(hint_files(files, paths, count), count, clause, datatypes, hint);
    return RNCV_DONE;
}

int32_t rncv_xml_hint_find(const rncv_file *files, const char *const *paths, size_t count, int32_t clause, rncv_xml_hint *hint) {
    return rncv_xml_hint_find_with(files, paths, count, clause, RNCV_DATATYPES_PROFILE, hint);
}

/* Says which mentioned file is not there. */
static void explain_missing(struct missing *missing, rncv_xml_fault *fault, struct bytes *message) {
    bool is_sought = missing->sought.length > 0;
    struct bytes path = NO_BYTES;
    struct bytes name = NO_BYTES;
    add_text(&path, &missing->path);
    add_text(&name, is_sought ? &missing->sought : &missing->name);
    bytes_format(message, ": there is no %s%s", bytes_text(&name), is_sought ? "" : ", and nothing is fetched");
    fault->line = missing->place.line;
    fault->column = missing->place.column;
    fault->path = taken(&path);
    fault->missing = taken(&name);
}

/* Looks for a hint in files that were found. Its places are those of the files that were read, also where the compact syntax was written of them. */
static void find_own_hint(const rncv_xml_files *files, int32_t clause, uint32_t datatypes, rncv_xml_hint *hint) {
    const struct found *found = files->hidden;
    const struct schema_files *read = &found->files;
    struct schema_hint_file *list = calloc(read->count, sizeof *list);
    for (size_t at = 0; list != NULL && at < read->count; at++) {
        const struct schema_file *file = &read->list[at];
        const struct bytes *written = schema_file_written(file);
        list[at] = (struct schema_hint_file){file->name.data, file->name.length, written->data, written->length, file->path.data, &file->origins};
    }
    find_hint(list, read->count, clause, datatypes, hint);
}

/* Says what is wrong in an annotation, if that is at the place where the library refuses the file. */
static void add_annotation_hint(const rncv_xml_files *files, uint64_t file, const rncv_xml_fault *fault, struct bytes *message) {
    rncv_xml_hint hint;
    find_own_hint(files, 6, RNCV_DATATYPES_PROFILE, &hint); /* the clause does not depend on the datatypes */
    if (hint.line > 0 && hint.line == fault->line && hint.column == fault->column && hint.file == file) {
        bytes_format(message, ": hint: %s", hint.text);
    }
}

/* Says where the file is refused, or else where a hint is, or else where a datatype breaks S12. */
static void explain_place(const rncv_xml_files *files, const rncv_fault *refused, uint32_t datatypes, rncv_xml_fault *fault, struct bytes *message) {
    struct schema_files *read = &((struct found *)files->hidden)->files;
    bool is_known = refused->file >= 0 && (uint64_t)refused->file < read->count;
    struct bytes path = NO_BYTES;
    rncv_xml_hint hint = {.line = 0};
    struct datatype_place broken;
    uint64_t file = is_known ? (uint64_t)refused->file : 0;
    if (refused->line > 0) {
        int64_t column = schema_files_column(read, refused);
        struct place place = {(uint64_t)refused->line, column > 0 ? (uint64_t)column : 0};
        place = place_before(read->list[file].content.data, read->list[file].content.length, &read->list[file].origins, place);
        fault->line = place.line;
        fault->column = place.column;
        if (refused->clause == 6) {
            add_annotation_hint(files, file, fault, message);
        }
    } else {
        fault->line = 0;
        fault->column = 0;
        find_own_hint(files, refused->clause, datatypes, &hint);
    }
    if (hint.line > 0) {
        bytes_format(message, ": hint: %s", hint.text);
        file = hint.file;
        fault->line = hint.line;
        fault->column = hint.column;
    } else if (refused->clause == 12 && schema_datatypes_find(read, datatypes, &broken)) {
        file = broken.file;
        fault->line = broken.place.line;
        fault->column = broken.place.column;
    }
    bytes_add_text(&path, bytes_text(&read->list[file].path));
    fault->path = taken(&path);
}

int32_t rncv_xml_files_explain_with(const rncv_xml_files *files, const rncv_fault *refused, uint32_t datatypes, rncv_xml_fault *fault) {
    if (files == NULL || files->hidden == NULL || refused == NULL || fault == NULL || !is_set(datatypes)) {
        return RNCV_MISUSE;
    }
    struct found *found = files->hidden;
    refused = found->files.is_judged ? &found->files.judged : refused; /* there are too many files for the library to say it */
    struct bytes message = NO_BYTES;
    const char *title = rncv_clause_title('S', refused->clause);
    rncv_xml_fault_free(fault);
    fault->clause = refused->clause;
    bytes_format(&message, "S%d %s", (int)refused->clause, title == NULL ? "" : title);
    if (refused->clause == 1 && refused->file < 0 && found->files.missing.is_there) {
        explain_missing(&found->files.missing, fault, &message);
    } else {
        explain_place(files, refused, datatypes, fault, &message);
    }
    fault->message = taken(&message);
    return fault->path == NULL || fault->message == NULL ? RNCV_MEMORY : RNCV_DONE;
}

int32_t rncv_xml_files_explain(const rncv_xml_files *files, const rncv_fault *refused, rncv_xml_fault *fault) {
    return rncv_xml_files_explain_with(files, refused, RNCV_DATATYPES_PROFILE, fault);
}

/* Compiles the files, and makes a judge. */
static int32_t open_judge(rncv_xml_files *files, uint32_t datatypes, rncv_xml_judge *judge, rncv_xml_fault *fault) {
    rncv_schema schema = RNCV_NOTHING;
    rncv_fault refused;
    int32_t status = schema_files_compile(&((struct found *)files->hidden)->files, datatypes, &schema, &refused);
    if (status == RNCV_REFUSED && fault != NULL) {
        rncv_xml_files_explain_with(files, &refused, datatypes, fault);
    }
    if (status == RNCV_DONE) {
        struct common *common = common_of(&schema, datatypes, &((struct found *)files->hidden)->files);
        status = common == NULL ? RNCV_MEMORY : hold(&schema, common, judge);
    }
    rncv_schema_free(&schema);
    return status;
}

int32_t rncv_xml_judge_open_with(const char *path, const rncv_xml_mapping *mappings, size_t count, uint32_t datatypes, rncv_xml_judge *judge,
                                 rncv_xml_fault *fault) {
    if (judge == NULL || is_busy(judge) || !is_set(datatypes)) {
        return RNCV_MISUSE;
    }
    rncv_xml_files files = RNCV_XML_NO_FILES;
    int32_t status = rncv_xml_files_find(path, mappings, count, &files, fault);
    if (status == RNCV_DONE) {
        status = open_judge(&files, datatypes, judge, fault);
    }
    rncv_xml_files_free(&files);
    return status;
}

int32_t rncv_xml_judge_open(const char *path, const rncv_xml_mapping *mappings, size_t count, rncv_xml_judge *judge, rncv_xml_fault *fault) {
    return rncv_xml_judge_open_with(path, mappings, count, RNCV_DATATYPES_PROFILE, judge, fault);
}

int32_t rncv_xml_judge_new_with(rncv_schema *schema, const rncv_file *files, size_t count, uint32_t datatypes, rncv_xml_judge *judge) {
    if (schema == NULL || judge == NULL || is_busy(judge) || !are_there(files, count) || !is_set(datatypes)) {
        return RNCV_MISUSE;
    }
    struct schema_files read;
    struct common *common = NULL;
    rncv_schema own = RNCV_NOTHING;
    int32_t status = rncv_schema_share(schema, &own);
    if (status != RNCV_DONE) {
        return status;
    }
    bool is_good = schema_files_collect(&read, &(struct schema_request){NULL, 0, NULL, 0, NULL, NULL, false, false, 0});
    for (size_t at = 0; at < count && is_good; at++) {
        is_good = files[at].length == 0 || schema_files_take_text(&read, (const char *)files[at].bytes, files[at].length);
    }
    if (is_good) {
        common = common_of(&own, datatypes, &read);
    }
    schema_files_free(&read);
    status = common == NULL ? RNCV_MEMORY : hold(&own, common, judge);
    rncv_schema_free(&own);
    return status;
}

int32_t rncv_xml_judge_new(rncv_schema *schema, const rncv_file *files, size_t count, rncv_xml_judge *judge) {
    return rncv_xml_judge_new_with(schema, files, count, RNCV_DATATYPES_PROFILE, judge);
}

int32_t rncv_xml_judge_share(rncv_xml_judge *judge, rncv_xml_judge *other) {
    if (judge == NULL || other == NULL || judge == other || judge->hidden == NULL || is_busy(judge) || is_busy(other)) {
        return RNCV_MISUSE;
    }
    struct held *held = judge->hidden;
    atomic_fetch_add(&held->common->owners, 1);
    return hold(&held->shared.schema, held->common, other);
}

int32_t rncv_xml_judge_ids(rncv_xml_judge *judge, int32_t wanted) {
    struct held *held = judge == NULL ? NULL : judge->hidden;
    if (held == NULL || is_busy(judge)) {
        return RNCV_MISUSE;
    }
    held->shared.ids = wanted != 0 ? held->common->ids : NULL;
    held->judge.ids.types = held->shared.ids;
    return RNCV_DONE;
}

void rncv_xml_judge_free(rncv_xml_judge *judge) {
    if (judge != NULL && !is_busy(judge)) {
        held_free(judge->hidden);
        judge->hidden = NULL;
    }
}

static bool read_file(void *context, char *bytes, size_t size, size_t *length, struct fault *fault) {
    struct reading *reading = context;
    ssize_t count;
    do {
        count = read(reading->file, bytes, size);
    } while (count < 0 && errno == EINTR);
    if (count < 0) {
        reading->error = errno;
        fault_set(fault, FAULT_DEVICE, (struct place){0, 0}, "%s", strerror(reading->error));
        return false;
    }
    *length = (size_t)count;
    return true;
}

static bool read_bytes(void *context, char *bytes, size_t size, size_t *length, struct fault *fault) {
    struct reading *reading = context;
    (void)fault;
    *length = size < reading->left.length ? size : reading->left.length;
    if (*length > 0) {
        memcpy(bytes, reading->left.data, *length);
        reading->left = (struct span){reading->left.data + *length, reading->left.length - *length};
    }
    return true;
}

static bool read_given(void *context, char *bytes, size_t size, size_t *length, struct fault *fault) {
    struct reading *reading = context;
    rncv_xml_piece piece = {reading->context, bytes, size, SIZE_MAX};
    reading->read(&piece);
    if (piece.length > size) {
        fault_set(fault, FAULT_DEVICE, (struct place){0, 0}, "read failed");
        return false;
    }
    *length = piece.length;
    return true;
}

/* Writes the notes of the answer as lines, and returns them. */
static const char *joined_notes(struct held *held) {
    bytes_clear(&held->notes);
    if (held->common->unsound.length > 0) {
        bytes_add_text(&held->notes, "1:1: note: IDs are not checked: ");
        bytes_add(&held->notes, held->common->unsound.data, held->common->unsound.length);
        bytes_add_byte(&held->notes, '\n');
    }
    for (size_t at = 0; at < held->answer.note_count; at++) {
        struct note *note = &held->answer.notes[at];
        bytes_format(&held->notes, "%" PRIu64 ":%" PRIu64 ": note: ", note->place.line, note->place.column);
        bytes_add(&held->notes, note->what.data, note->what.length);
        bytes_add_byte(&held->notes, '\n');
        held->notes.failed |= note->what.failed;
    }
    return bytes_text(&held->notes);
}

static int32_t stands_of(const struct answer *answer) {
    static const int32_t places[] = {RNCV_XML_AT_UNKNOWN, RNCV_XML_AT_ELEMENT, RNCV_XML_AT_ATTRIBUTE, RNCV_XML_AT_TEXT, RNCV_XML_AT_END};
    return places[answer->stands];
}

static rncv_xml_answer no_answer(void) {
    return (rncv_xml_answer){.name = "", .message = "", .notes = "", .earlier_name = "", .earlier_message = "", .reason = "", .attribute = "", .datatype = "",
                             .expected = "", .token = ""};
}

/* Ends the texts of an answer by zeros. False: out of memory. */
static bool end_texts(struct answer *own) {
    struct bytes *const texts[] = {&own->name, &own->message, &own->attribute, &own->datatype, &own->token};
    bool is_good = true;
    for (size_t at = 0; at < sizeof texts / sizeof *texts; at++) {
        bytes_text(texts[at]);
        is_good = is_good && !texts[at]->failed;
    }
    return is_good;
}

/* Hands out where a document is at fault, and by what. The texts have ended. */
static void give_fault(const struct answer *own, rncv_xml_answer *answer) {
    answer->at = stands_of(own);
    answer->line = own->place.line;
    answer->column = own->place.column;
    answer->name = own->name.data;
    answer->message = own->message.data;
    answer->reason = reason_word(own->reason);
    answer->attribute = own->attribute.data;
    answer->datatype = own->datatype.data;
    answer->expected = own->expected_count == 0 ? "" : own->expected.data;
    answer->expected_count = own->expected_count;
    answer->token = own->token.data;
}

/* The answer for the caller, and the status. Without memory for its texts there is no answer. */
static int32_t give_answer(struct held *held, int error, rncv_xml_answer *answer) {
    static const int32_t verdicts[] = {RNCV_XML_VALID, RNCV_XML_INVALID, RNCV_XML_MALFORMED, RNCV_XML_OUTSIDE, RNCV_XML_FAILED};
    struct answer *own = &held->answer;
    const char *notes = joined_notes(held);
    *answer = no_answer();
    bool has_texts = end_texts(own) && (own->earlier == NULL || end_texts(own->earlier)) && !held->notes.failed && !own->notes_failed;
    if (!has_texts || (own->verdict == VERDICT_FAILED && (own->message.length == 0 || strcmp(own->message.data, "out of memory") == 0))) {
        return RNCV_MEMORY;
    }
    give_fault(own, answer);
    answer->verdict = verdicts[own->verdict];
    answer->clause = own->clause;
    answer->error = error;
    answer->notes = notes;
    answer->note_count = own->note_count + (held->common->unsound.length > 0);
    if (own->earlier != NULL) {
        answer->earlier_at = stands_of(own->earlier);
        answer->earlier_line = own->earlier->place.line;
        answer->earlier_column = own->earlier->place.column;
        answer->earlier_name = own->earlier->name.data;
        answer->earlier_message = own->earlier->message.data;
    }
    return RNCV_DONE;
}

/* Makes the judge as good as new after memory ran out: what could not grow would stay so. */
static void recover(struct judge *judge) {
    judge->ids.failed |= judge->ids.texts.failed || judge->ids.names.failed;
}

/* Judges what is read. */
static int32_t judge_reading(struct held *held, const struct byte_source *source, rncv_xml_answer *answer) {
    const struct reading *reading = source->context;
    answer_free(&held->answer);
    held->answer = (struct answer)NO_ANSWER;
    recover(&held->judge);
    if (held->notes.failed) {
        bytes_free(&held->notes);
    }
    held->is_busy = true;
    judge_by(&held->judge, source, &held->answer);
    held->is_busy = false;
    return give_answer(held, reading->error, answer);
}

/* Whether a document can be judged. Writes an answer without a verdict. */
static bool is_ready(rncv_xml_judge *judge, rncv_xml_answer *answer) {
    if (answer != NULL) {
        *answer = no_answer();
    }
    return answer != NULL && judge != NULL && judge->hidden != NULL && !is_busy(judge);
}

/* The answer for a file that cannot be opened. */
static int32_t give_unopened(struct held *held, int error, rncv_xml_answer *answer) {
    answer_free(&held->answer);
    held->answer = (struct answer)NO_ANSWER;
    bytes_add_text(&held->answer.message, strerror(error));
    return give_answer(held, error, answer);
}

int32_t rncv_xml_judge_file(rncv_xml_judge *judge, const char *path, rncv_xml_answer *answer) {
    if (!is_ready(judge, answer) || path == NULL) {
        return RNCV_MISUSE;
    }
    struct reading reading = {.file = open(path, O_RDONLY | O_CLOEXEC | O_NOCTTY)};
    if (reading.file < 0) {
        return give_unopened(judge->hidden, errno, answer);
    }
    int32_t status = judge_reading(judge->hidden, &(struct byte_source){read_file, &reading, NULL}, answer);
    close(reading.file);
    return status;
}

int32_t rncv_xml_judge_bytes(rncv_xml_judge *judge, const void *bytes, size_t length, rncv_xml_answer *answer) {
    if (!is_ready(judge, answer) || (bytes == NULL && length > 0)) {
        return RNCV_MISUSE;
    }
    struct reading reading = {.file = -1, .left = {bytes, length}};
    return judge_reading(judge->hidden, &(struct byte_source){read_bytes, &reading, NULL}, answer);
}

int32_t rncv_xml_judge_by(rncv_xml_judge *judge, rncv_xml_read read, void *context, rncv_xml_answer *answer) {
    if (!is_ready(judge, answer) || read == NULL) {
        return RNCV_MISUSE;
    }
    struct reading reading = {.file = -1, .read = read, .context = context};
    return judge_reading(judge->hidden, &(struct byte_source){read_given, &reading, NULL}, answer);
}

/* Drops hints that have no words, since memory ran out for them. */
static void drop_wordless(struct answer *own) {
    size_t kept = 0;
    for (size_t at = 0; at < own->hint_count; at++) {
        struct answer *hint = &own->hints[at];
        if (!end_texts(hint)) {
            answer_free(hint);
        } else {
            own->hints[kept++] = *hint;
        }
    }
    own->hint_count = kept;
}

int32_t rncv_xml_judge_again(rncv_xml_judge *judge, rncv_xml_read read, void *context, size_t most, size_t *count) {
    struct held *held = judge == NULL ? NULL : judge->hidden;
    if (held == NULL || held->is_busy || read == NULL || count == NULL) {
        return RNCV_MISUSE;
    }
    struct reading reading = {.file = -1, .read = read, .context = context};
    held->shared.most_faults = 1 + (most < RNCV_XML_MOST_HINTS ? most : RNCV_XML_MOST_HINTS);
    held->is_busy = true;
    judge_again(&held->judge, &(struct byte_source){read_given, &reading, NULL}, &held->answer);
    held->is_busy = false;
    drop_wordless(&held->answer);
    *count = held->answer.hint_count;
    return RNCV_DONE;
}

int32_t rncv_xml_judge_hint(rncv_xml_judge *judge, size_t index, rncv_xml_answer *answer) {
    if (!is_ready(judge, answer)) {
        return RNCV_MISUSE;
    }
    struct answer *own = &((struct held *)judge->hidden)->answer;
    if (index >= own->hint_count) {
        return RNCV_MISUSE;
    }
    answer->verdict = RNCV_XML_INVALID;
    give_fault(&own->hints[index], answer);
    return RNCV_DONE;
}
