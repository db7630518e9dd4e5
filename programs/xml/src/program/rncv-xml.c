/* rncv-xml: judges XML documents by a RELAX NG schema. */
#include "alone_schema.h"
#include "clause_page.h"
#include "jobs.h"
#include "schema_context.h"
#include "schema_datatypes.h"
#include "schema_hints.h"
#include "schema_ids.h"

#include <inttypes.h>
#include <stdlib.h>
#include <string.h>
#include <unistd.h>

static const char no_memory[] = "rncv-xml: out of memory";

/* Prints a line that belongs to no file. */
static void report_failure(struct report *report, const char *what, int status) {
    struct bytes line = NO_BYTES;
    bytes_add_text(&line, "rncv-xml: ");
    add_shown(&line, what, strlen(what), SIZE_MAX);
    const char *text = bytes_text(&line);
    status = line.failed ? STATUS_FAILED : status;
    report->status = status > report->status ? status : report->status;
    progress_hide(report->progress);
    write_error_line(line.failed ? no_memory : text);
    bytes_free(&line);
}

/* Reports what is wrong with the schema. */
static void report_message(struct report *report, struct schema_fault *fault, struct bytes *message) {
    fault->message = bytes_text(message);
    if (message->failed) {
        report_failure(report, "out of memory", STATUS_FAILED);
    } else {
        report_schema(report, fault);
    }
}

/* Adds the name of a file as it is shown. */
static void add_name(struct bytes *line, struct bytes *name) {
    add_shown(line, name->data, name->length, SIZE_MAX);
}

/* Adds a hint: where the schema most likely breaks the clause, and by what. */
static void add_hint(struct bytes *message, struct schema_files *files, uint32_t datatypes, struct schema_fault *found) {
    struct schema_hint_file *list = calloc(files->count, sizeof *list);
    struct schema_hint hint;
    for (size_t at = 0; list != NULL && at < files->count; at++) {
        struct schema_file *file = &files->list[at];
        const struct bytes *written = schema_file_written(file);
        list[at] = (struct schema_hint_file){file->name.data, file->name.length, written->data, written->length, bytes_text(&file->path), &file->origins};
    }
    bool is_due = list != NULL && (found->place.line == 0 || found->clause == 6);
    bool is_found = is_due && schema_hint_find(list, files->count, found->clause, datatypes, &hint);
    if (is_found && found->clause == 6) { /* the library knows the place: it may be another fault */
        is_found = hint.line == found->place.line && hint.column == found->place.column && found->path == list[hint.file].shown;
    }
    if (is_found) {
        found->path = list[hint.file].shown;
        found->place = (struct place){hint.line, hint.column};
        bytes_format(message, ": hint: %s", hint.text);
    }
    free(list);
}

/* Takes the place of a datatype that breaks S12 from the library, which has no words about it. */
static void find_datatype(struct schema_files *files, uint32_t datatypes, struct schema_fault *found) {
    struct datatype_place broken;
    if (schema_datatypes_find(files, datatypes, &broken)) {
        found->path = bytes_text(&files->list[broken.file].path);
        found->place = broken.place;
    }
}

/* Reports which clause the schema breaks, where, and where the clause is explained. */
static void report_refusal(struct report *report, struct schema_files *files, const rncv_fault *fault) {
    struct bytes message = NO_BYTES;
    const char *title = rncv_clause_title('S', fault->clause);
    struct schema_fault found = {NULL, {0, 0}, (int)fault->clause, "", STATUS_REFUSED};
    bytes_format(&message, "S%d %s", (int)fault->clause, title == NULL ? "" : title);
    struct schema_file *file = &files->list[fault->file >= 0 && (uint64_t)fault->file < files->count ? fault->file : 0];
    found.path = bytes_text(&file->path);
    if (fault->line > 0) {
        struct place place = {(uint64_t)fault->line, fault->column > 0 ? (uint64_t)fault->column : 1};
        found.place = place_before(file->content.data, file->content.length, &file->origins, place);
    }
    if (fault->clause == 1 && fault->file < 0 && files->missing.is_there) {
        struct missing *missing = &files->missing;
        bool is_sought = missing->sought.length > 0;
        found.path = bytes_text(&missing->path);
        found.place = missing->place;
        bytes_add_text(&message, ": there is no ");
        add_name(&message, is_sought ? &missing->sought : &missing->name);
        bytes_add_text(&message, is_sought ? "" : ", and nothing is fetched (--map HREF=FILE)");
    }
    add_hint(&message, files, report->options->datatypes, &found);
    if (found.clause == 12 && found.place.line == 0) {
        find_datatype(files, report->options->datatypes, &found);
    }
    bytes_format(&message, ", see %s", report->page);
    report_message(report, &found, &message);
    bytes_free(&message);
}

/* Reports why the files make no schema. */
static void report_problem(struct report *report, struct schema_files *files) {
    if (files->failed) {
        report_failure(report, "out of memory", STATUS_FAILED);
    } else if (files->problem_path.length > 0) {
        struct schema_fault found = {bytes_text(&files->problem_path), files->problem_place, 0, "", files->problem_status};
        report_message(report, &found, &files->problem);
    } else {
        report_failure(report, bytes_text(&files->problem), files->problem_status);
    }
}

/* Whether the file has the name of a schema. */
static bool is_named_schema(const char *path) {
    size_t length = strlen(path);
    return length > 4 && (strcmp(path + length - 4, ".rnc") == 0 || strcmp(path + length - 4, ".rng") == 0);
}

/* Adds that something was done to so many datatypes. */
static void add_change(struct bytes *line, unsigned long long count, const char *what) {
    bytes_add_count(line, count);
    bytes_add_text(line, count == 1 ? " datatype was " : " datatypes were ");
    bytes_add_text(line, what);
}

/* Adds what rncv-profile changed in the schema, and the file in which it says where: `main.profile.txt` for `main.rnc`. */
static void add_changes(struct bytes *line, struct schema_files *files, const char *where) {
    const char *path = bytes_text(&files->list[0].path);
    size_t length = strlen(path);
    if (files->loosened > 0) {
        add_change(line, files->loosened, "loosened");
    }
    bytes_add_text(line, files->loosened > 0 && files->tightened > 0 ? " and " : "");
    if (files->tightened > 0) {
        add_change(line, files->tightened, "tightened");
    }
    bytes_format(line, " %s (see ", where);
    add_shown(line, path, is_named_schema(path) ? length - 4 : length, SIZE_MAX);
    bytes_add_text(line, ".profile.txt)");
}

static bool is_changed(const struct schema_files *files) {
    return files->loosened > 0 || files->tightened > 0;
}

/* Reports that memory ran out. Always false. */
static bool report_lost(struct report *report) {
    report_failure(report, "out of memory", STATUS_FAILED);
    return false;
}

/* Reports that rncv-profile changed the schema. False: such a schema is refused. */
static bool is_strict_enough(struct report *report, struct schema_files *files) {
    struct bytes message = NO_BYTES;
    struct schema_fault found = {bytes_text(&files->list[0].path), {0, 0}, 0, "", STATUS_REFUSED};
    bool is_refused = is_changed(files) && report->options->is_strict;
    if (is_changed(files)) {
        add_changes(&message, files, is_refused ? "in it" : "in the schema");
    }
    if (is_refused) {
        report_message(report, &found, &message);
    } else if (is_changed(files)) {
        report_schema_note(report, found.path, &message);
    }
    bytes_free(&message);
    return !is_refused && (!report->schema_note.failed || report_lost(report));
}

/* Reads which attributes have an ID-type. If they are not checked, the schema is looser by so many datatypes. False: what is wrong was reported. */
static bool take_ids(struct report *report, struct schema_files *files, rncv_schema *schema, struct id_types **types) {
    struct bytes unsound = NO_BYTES;
    *types = NULL;
    if (!report->options->skips_ids && !schema_ids_read(schema, files, types, &unsound)) {
        bytes_free(&unsound);
        return report_lost(report);
    }
    if (unsound.length > 0) {
        struct bytes note = NO_BYTES;
        bytes_add_text(&note, "IDs are not checked: ");
        add_shown(&note, unsound.data, unsound.length, SIZE_MAX);
        note.failed |= unsound.failed;
        report_unchecked(report, bytes_text(&files->list[0].path), &note);
        bytes_free(&note);
    }
    files->loosened += report->options->skips_ids || unsound.length > 0 ? files->marked : 0;
    bytes_free(&unsound);
    return !report->schema_note.failed || report_lost(report);
}

/* Says which texts are judged by their spelling alone, if the schema names such datatypes. False: such a schema is refused, or memory ran out. */
static bool take_context(struct report *report, struct schema_files *files, rncv_schema *schema) {
    struct bytes note = NO_BYTES;
    struct schema_fault found = {bytes_text(&files->list[0].path), {0, 0}, 0, "", STATUS_REFUSED};
    bool is_known = schema_context_read(schema, files, &note);
    bool is_refused = is_known && note.length > 0 && report->options->refuses_notes;
    if (is_refused) {
        report_message(report, &found, &note);
    } else if (note.length > 0) {
        report_unchecked(report, found.path, &note);
    }
    bytes_free(&note);
    return !is_refused && ((is_known && !report->schema_note.failed) || report_lost(report));
}

/* The first word after the main file that has the name of a schema; NULL: there is none. */
static const char *later_schema(const struct options *options) {
    for (size_t at = 1; at < options->schema_count + options->document_count; at++) {
        const char *word = at < options->schema_count ? options->schemas[at] : options->documents[at - options->schema_count];
        if (is_named_schema(word)) {
            return word;
        }
    }
    return NULL;
}

/* Prints what the library gets: each file, after a comment with its path and the name by which others mention it. */
static void print_files(struct report *report, struct schema_files *files) {
    struct bytes *text = &report->output->waiting;
    for (size_t at = 0; at < files->handed; at++) {
        struct schema_file *file = &files->list[at];
        bytes_add_text(text, at == 0 ? "# " : "\n# ");
        add_name(text, &file->path);
        if (at > 0) {
            bytes_add_text(text, ", mentioned as ");
            add_name(text, &file->name);
        }
        bytes_add_byte(text, '\n');
        const struct bytes *handed = schema_file_handed(file);
        bytes_add(text, handed->data, handed->length);
        bytes_add_text(text, handed->length > 0 && handed->data[handed->length - 1] == '\n' ? "" : "\n");
    }
    output_flush(report->output);
}

/* Prints what was noted about files in the XML syntax, to standard error. */
static void report_all_notes(struct report *report, struct schema_files *files) {
    if (files->notes.length > 0) {
        report_note(report, bytes_text(&files->notes));
    }
}

/* Reads the schema's files and compiles them. False: what is wrong was reported. */
static bool compile(struct report *report, struct schema_files *files, rncv_schema *schema, struct id_types **types) {
    const struct options *options = report->options;
    struct catalogs catalogs;
    struct schema_request request = {options->schemas,      options->schema_count, options->mappings, options->mapping_count,
                                     later_schema(options), &catalogs,             false,            options->refuses_notes,
                                     options->most_files};
    rncv_fault fault;
    bool is_good = catalogs_open(&catalogs, options->catalogs, options->catalog_count, getenv("XML_CATALOG_FILES"));
    if (!is_good) {
        memset(files, 0, sizeof *files);
        files->failed = true;
    }
    is_good = is_good && schema_files_collect(files, &request);
    catalogs_close(&catalogs);
    if (!is_good) {
        report_problem(report, files);
        return false;
    }
    report_all_notes(report, files);
    if (options->prints_schema) {
        print_files(report, files);
    }
    switch (schema_files_compile(files, options->datatypes, schema, &fault)) {
    case RNCV_DONE:
        schema_files_forget(files);
        return take_context(report, files, schema) && take_ids(report, files, schema, types) && is_strict_enough(report, files);
    case RNCV_REFUSED:
        report_refusal(report, files, &fault);
        return false;
    default:
        report_failure(report, "out of memory", STATUS_FAILED);
        return false;
    }
}

/* Prints a note to standard error. */
static void report_line(struct report *report, struct bytes *line) {
    const char *text = bytes_text(line);
    if (line->failed) {
        report_failure(report, "out of memory", STATUS_FAILED);
    } else {
        report_note(report, text);
    }
}

static void report_files(struct report *report, struct schema_files *files) {
    for (size_t at = 0; at < files->count; at++) {
        struct bytes line = NO_BYTES;
        bytes_add_text(&line, "rncv-xml: schema file ");
        add_name(&line, &files->list[at].path);
        report_line(report, &line);
        bytes_free(&line);
    }
}

/* Prints a closing line: how many documents have each verdict, and that the schema was changed. With --quiet it says only the latter. */
static void report_closing(struct report *report, struct schema_files *files) {
    static const char *const words[] = {"valid", "invalid", "malformed", "outside the profile", "not read"};
    struct bytes line = NO_BYTES;
    bool is_first = true;
    for (int at = VERDICT_VALID; at <= VERDICT_FAILED; at++) {
        if (report->counts[at] > 0 || at == VERDICT_VALID) {
            bytes_add_text(&line, is_first ? "" : ", ");
            bytes_add_count(&line, report->counts[at]);
            bytes_format(&line, " %s", words[at]);
            is_first = false;
        }
    }
    if (is_changed(files)) {
        bytes_add_text(&line, ", by a schema that ");
        add_changes(&line, files, "in");
    }
    if (is_changed(files) && report->options->is_quiet) {
        report_failure(report, bytes_text(&report->schema_note), STATUS_VALID);
    } else if (is_changed(files) || report->options->is_verbose) {
        report_line(report, &line);
    }
    bytes_free(&line);
}

static unsigned jobs_of(const struct options *options) {
    long processors = options->jobs > 0 ? (long)options->jobs : sysconf(_SC_NPROCESSORS_ONLN);
    return processors < 1 ? 1 : processors > MOST_JOBS ? MOST_JOBS : (unsigned)processors;
}

/* Judges the documents by the schema, which is compiled. */
static void judge_documents(struct report *report, struct shared *shared, struct documents *documents) {
    struct alone_schemas alone;
    bool has_hints = report->options->most_faults > 1 && !report->options->is_quiet;
    bool is_open = has_hints && alone_schemas_open(&alone, report->options->datatypes);
    shared->most_faults = report->options->most_faults;
    shared->alone = is_open ? &alone : NULL;
    if (!jobs_run(documents, shared, report, jobs_of(report->options))) {
        report_failure(report, "out of memory", STATUS_FAILED);
    }
    if (is_open) {
        alone_schemas_close(&alone);
    }
}

/* Whether a document was named, or is in a list or a folder. */
static bool has_documents(const struct report *report) {
    bool is_one = false;
    for (size_t at = 0; at < sizeof report->counts / sizeof *report->counts; at++) {
        is_one |= report->counts[at] > 0;
    }
    return is_one;
}

static void judge_all(struct report *report, struct shared *shared, struct documents *documents) {
    struct schema_files files;
    struct id_types *types = NULL;
    if (compile(report, &files, &shared->schema, &types) && !report->options->prints_schema) {
        shared->ids = types;
        if (report->options->is_verbose) {
            report_files(report, &files);
        }
        judge_documents(report, shared, documents);
        if (report->options->document_count == 0 && report->options->files_from == NULL) {
            report_note(report, "rncv-xml: the schema is good; no document is named");
        } else {
            report_closing(report, &files);
            if (!has_documents(report) && report->status == STATUS_VALID) {
                report_note(report, "rncv-xml: the schema is good; no document is found");
            }
        }
    }
    rncv_schema_free(&shared->schema);
    schema_ids_free(types);
    schema_files_free(&files);
}

static int run(const struct options *options, struct streams streams) {
    struct output output = {"rncv-xml", 1, streams.output_is_closed, NO_BYTES};
    struct progress progress;
    struct report report;
    struct documents documents;
    char room[4096];
    const char *page = find_clause_page(room, sizeof room);
    struct shared shared = {.schema = RNCV_NOTHING,
                            .datatypes = options->datatypes,
                            .streams = streams,
                            .depth = options->depth,
                            .memory = options->memory,
                            .attributes = options->attributes,
                            .is_strict = options->refuses_notes,
                            .loads_dtd = options->loads_dtd,
                            .page = page,
                            .tick = progress_tick,
                            .context = &progress};
    atomic_init(&shared.bytes_read, 0);
    documents_open(&documents, options, streams);
    progress_open(&progress, !options->is_quiet && isatty(2), documents.known, &shared.bytes_read);
    report_open(&report, options, &output, &progress);
    report.page = page;
    judge_all(&report, &shared, &documents);
    report_close(&report);
    progress_close(&progress);
    documents_close(&documents);
    bytes_free(&output.waiting);
    return report.status;
}

/* Prints a text to standard output. */
static int print(const char *text, struct streams streams) {
    struct output output = {"rncv-xml", 1, streams.output_is_closed, NO_BYTES};
    bytes_add_text(&output.waiting, text);
    output_flush(&output);
    bytes_free(&output.waiting);
    return STATUS_VALID;
}

/* Prints the version, and that of the library, which says if it is not proved. */
static int print_version(struct streams streams) {
    struct bytes text = NO_BYTES;
    bytes_add_text(&text, "rncv-xml " PROGRAM_VERSION " (librncv ");
    bytes_add_text(&text, rncv_version());
    bytes_add_text(&text, ")\n");
    int status = print(bytes_text(&text), streams);
    bytes_free(&text);
    return status;
}

/* Says what is wrong with the words, or that memory ran out. Returns the exit status. */
static int report_wrong(struct options *options) {
    struct bytes line = NO_BYTES;
    bytes_add_text(&line, "rncv-xml: ");
    add_shown(&line, options->wrong.data, options->wrong.length, SIZE_MAX);
    bytes_add_text(&line, "\nusage: rncv-xml [OPTIONS] SCHEMA [DOCUMENT.xml | FOLDER | -]..    (--help says more)");
    const char *text = bytes_text(&line);
    bool is_failed = options->failed || line.failed;
    write_error_line(is_failed ? no_memory : text);
    bytes_free(&line);
    return is_failed ? STATUS_FAILED : STATUS_USAGE;
}

int main(int count, char **words) {
    struct streams streams = program_begins();
    struct options options;
    int status;
    if (!options_read(&options, count, words)) {
        status = report_wrong(&options);
    } else if (options.wants_help) {
        status = print(options_help(), streams);
    } else if (options.wants_version) {
        status = print_version(streams);
    } else {
        status = run(&options, streams);
    }
    options_free(&options);
    return status;
}
