/* rng2rnc: writes a RELAX NG schema of the XML syntax in the compact syntax. */
#include "judging.h"
#include "paths.h"
#include "schema_files.h"

#include <errno.h>
#include <fcntl.h>
#include <inttypes.h>
#include <stdlib.h>
#include <string.h>
#include <sys/stat.h>
#include <unistd.h>

static const char usage[] = "usage: rng2rnc [-o DIR] [--map HREF=FILE].. SCHEMA.rng    (--help says more)";
static const char no_memory[] = "rng2rnc: out of memory";

static const char help[] =
    "usage: rng2rnc [-o DIR] [--map HREF=FILE].. SCHEMA.rng\n"
    "\n"
    "Writes a RELAX NG schema of the XML syntax in the compact syntax, as rncv-xml hands it to the proved library. Nothing here is\n"
    "proved.\n"
    "\n"
    "  -o, --output DIR     write the schema and the files that it mentions into this folder, with plain names that end in .rnc;\n"
    "                       without it the schema alone is written, to standard output\n"
    "      --map HREF=FILE  the file that HREF means in an include or externalRef; can be repeated\n"
    "      --catalog FILE   an XML catalog for hrefs that are URIs; can be repeated. XML_CATALOG_FILES names others\n"
    "  -h, --help           this text\n"
    "      --version        the version\n"
    "\n"
    "Exit status: 0; 3 if a file is no schema or mentions one that is not there, with a line FILE:LINE:COLUMN: WHAT; 4 if a file\n"
    "cannot be read or a device failed; 5 for wrong words; 130 after Ctrl-C; 141 if the output is a closed pipe.\n";

struct options {
    const char *schema;
    const char *folder; /* NULL: standard output */
    struct mapping *mappings;
    size_t mapping_count;
    const char **catalogs;
    size_t catalog_count;
    const char *printed; /* a text to print instead */
    bool failed;      /* memory ran out */
};

static bool take_mapping(struct options *options, const char *value) {
    const char *equal = strrchr(value, '=');
    if (equal == NULL || equal == value || equal[1] == '\0') {
        return false;
    }
    struct mapping *longer = realloc(options->mappings, (options->mapping_count + 1) * sizeof *longer);
    options->failed = longer == NULL;
    if (longer != NULL) {
        longer[options->mapping_count++] = (struct mapping){value, (size_t)(equal - value), equal + 1};
        options->mappings = longer;
    }
    return longer != NULL;
}

static bool take_catalog(struct options *options, const char *value) {
    const char **longer = realloc(options->catalogs, (options->catalog_count + 1) * sizeof *longer);
    options->failed = longer == NULL;
    if (longer != NULL) {
        longer[options->catalog_count++] = value;
        options->catalogs = longer;
    }
    return longer != NULL && value[0] != '\0';
}

static bool take_folder(struct options *options, const char *value) {
    options->folder = value;
    return value[0] != '\0';
}

/* The value of an option: what follows its word and a `=`, or else the next word. NULL: the word is another one, or there is no value. */
static const char *value_of(const char *word, const char *option, char *next, int *at) {
    size_t length = strlen(option);
    if (strncmp(word, option, length) != 0 || (word[length] != '\0' && word[length] != '=')) {
        return NULL;
    }
    *at += word[length] == '\0';
    return word[length] == '=' ? word + length + 1 : next;
}

/* Takes the option at this place. False: the words are wrong. */
static bool take_option(struct options *options, char **words, int *at) {
    const char *word = words[*at];
    char *next = words[*at + 1]; /* NULL after the last word */
    const char *value;
    if (strcmp(word, "--help") == 0 || strcmp(word, "-h") == 0) {
        options->printed = help;
        return true;
    }
    if (strcmp(word, "--version") == 0) {
        options->printed = "rng2rnc " PROGRAM_VERSION "\n";
        return true;
    }
    if ((value = value_of(word, "--output", next, at)) != NULL || (value = value_of(word, "-o", next, at)) != NULL) {
        return take_folder(options, value);
    }
    if ((value = value_of(word, "--catalog", next, at)) != NULL) {
        return take_catalog(options, value);
    }
    value = value_of(word, "--map", next, at);
    return value != NULL && take_mapping(options, value);
}

/* False: the words are wrong, or memory ran out. */
static bool options_of(int count, char **words, struct options *options) {
    bool are_options = true;
    *options = (struct options){.schema = NULL};
    for (int at = 1; at < count; at++) {
        const char *word = words[at];
        if (are_options && strcmp(word, "--") == 0) {
            are_options = false;
        } else if (are_options && word[0] == '-') {
            if (!take_option(options, words, &at)) {
                return false;
            }
        } else if (options->schema != NULL) {
            return false;
        } else {
            options->schema = word;
        }
    }
    return options->printed != NULL || options->schema != NULL;
}

/* Prints a line about a file, or about none, to standard error. Returns the status. */
static int report_at(struct bytes *path, struct place place, struct bytes *what, int status) {
    struct bytes line = NO_BYTES;
    if (path == NULL || path->length == 0) {
        bytes_add_text(&line, "rng2rnc: ");
    } else {
        add_shown(&line, path->data, path->length, SIZE_MAX);
        if (place.line > 0) {
            bytes_format(&line, ":%" PRIu64 ":%" PRIu64, place.line, place.column);
        }
        bytes_add_text(&line, ": ");
    }
    add_shown(&line, what->data, what->length, SIZE_MAX);
    bool is_lost = line.failed || what->failed;
    const char *text = bytes_text(&line);
    write_error_line(is_lost || line.failed ? no_memory : text);
    status = is_lost || line.failed ? STATUS_FAILED : status;
    bytes_free(&line);
    return status;
}

/* Prints what a call of the system says about a file. */
static int report_error(const char *path, int error) {
    struct bytes what = NO_BYTES;
    add_shown(&what, path, strlen(path), SIZE_MAX);
    bytes_format(&what, ": %s", strerror(error));
    int status = report_at(NULL, (struct place){0, 0}, &what, STATUS_FAILED);
    bytes_free(&what);
    return status;
}

/* Says which file is not there. */
static int report_missing(struct missing *missing) {
    struct bytes what = NO_BYTES;
    bool is_sought = missing->sought.length > 0;
    const struct bytes *name = is_sought ? &missing->sought : &missing->name;
    bytes_add_text(&what, "there is no ");
    add_shown(&what, name->data, name->length, SIZE_MAX);
    bytes_add_text(&what, is_sought ? "" : ", and nothing is fetched (--map HREF=FILE)");
    int status = report_at(&missing->path, missing->place, &what, STATUS_REFUSED);
    bytes_free(&what);
    return status;
}

/* Whether the path is that of a file of the schema. */
static bool is_of_schema(struct schema_files *files, const char *path) {
    for (size_t at = 0; at < files->count; at++) {
        if (is_file(path) && is_same(bytes_text(&files->list[at].path), path)) {
            return true;
        }
    }
    return false;
}

static int write_file(const char *path, const struct bytes *content) {
    int file = open(path, O_WRONLY | O_CREAT | O_TRUNC | O_CLOEXEC | O_NOCTTY, 0666);
    if (file < 0) {
        return report_error(path, errno);
    }
    bool is_good = write_all(file, content->data, content->length);
    int error = errno;
    if (close(file) != 0 && is_good) {
        is_good = false;
        error = errno;
    }
    return is_good ? STATUS_VALID : report_error(path, error);
}

/* Writes a file into the folder, and adds its path to the line. */
static int write_copy(struct schema_files *files, const struct schema_file *file, const char *folder, struct bytes *line) {
    struct bytes path = NO_BYTES;
    bytes_format(&path, "%s/%.*s", folder, (int)file->name.length, file->name.data);
    const char *text = bytes_text(&path);
    int status = STATUS_FAILED;
    if (path.failed) {
        write_error_line(no_memory);
    } else if (is_of_schema(files, text)) {
        struct bytes what = NO_BYTES;
        bytes_add_text(&what, "a copy would replace this file of the schema: choose another folder");
        status = report_at(&path, (struct place){0, 0}, &what, STATUS_FAILED);
        bytes_free(&what);
    } else {
        status = write_file(text, &file->content);
    }
    bytes_add_byte(line, ' ');
    add_shown(line, path.data, path.length, SIZE_MAX);
    bytes_free(&path);
    return status;
}

/* Writes all files, and prints their names. */
static int write_copies(struct schema_files *files, const struct options *options, struct output *output) {
    struct bytes *line = &output->waiting;
    int status = STATUS_VALID;
    if (mkdir(options->folder, 0777) != 0 && errno != EEXIST) {
        return report_error(options->folder, errno);
    }
    bytes_add_text(line, "written:");
    for (size_t at = 0; at < files->count && status == STATUS_VALID; at++) {
        status = write_copy(files, &files->list[at], options->folder, line);
    }
    bytes_add_byte(line, '\n');
    if (status == STATUS_VALID) {
        output_flush(output);
    }
    return status;
}

/* Prints the main file, and says how many others it mentions. */
static int print_main(struct schema_files *files, struct output *output) {
    struct bytes what = NO_BYTES;
    bytes_add(&output->waiting, files->list[0].content.data, files->list[0].content.length);
    output_flush(output);
    if (files->count == 1) {
        return STATUS_VALID;
    }
    bytes_add_count(&what, files->count - 1);
    bytes_add_text(&what, files->count == 2 ? " more file is mentioned: -o DIR writes it too" : " more files are mentioned: -o DIR writes them too");
    int status = report_at(NULL, (struct place){0, 0}, &what, STATUS_VALID);
    bytes_free(&what);
    return status;
}

/* Says why the files were not collected. */
static int report_problem(struct schema_files *files) {
    if (files->failed) {
        write_error_line(no_memory);
        return STATUS_FAILED;
    }
    return report_at(&files->problem_path, files->problem_place, &files->problem, files->problem_status);
}

static int run(const struct options *options, struct streams streams) {
    struct output output = {"rng2rnc", 1, streams.output_is_closed, NO_BYTES};
    struct catalogs catalogs;
    struct schema_request request = {&options->schema, 1, options->mappings, options->mapping_count, NULL, &catalogs, true, false, 0};
    struct schema_files files;
    struct bytes what = NO_BYTES;
    int status;
    bool has_catalogs = catalogs_open(&catalogs, options->catalogs, options->catalog_count, getenv("XML_CATALOG_FILES"));
    if (!has_catalogs) {
        memset(&files, 0, sizeof files);
        files.failed = true;
    }
    if (!has_catalogs || !schema_files_collect(&files, &request)) {
        status = report_problem(&files);
    } else if (files.list[0].origins.count == 0) {
        bytes_add_text(&what, "this is no schema in the XML syntax");
        status = report_at(&files.list[0].path, (struct place){0, 0}, &what, STATUS_REFUSED);
    } else if (files.missing.is_there) {
        status = report_missing(&files.missing);
    } else {
        if (files.notes.length > 0) {
            write_error_line(bytes_text(&files.notes));
        }
        status = options->folder == NULL ? print_main(&files, &output) : write_copies(&files, options, &output);
    }
    bytes_free(&what);
    bytes_free(&output.waiting);
    schema_files_free(&files);
    catalogs_close(&catalogs);
    return status;
}

int main(int count, char **words) {
    struct streams streams = program_begins();
    struct options options;
    int status = STATUS_VALID;
    if (!options_of(count, words, &options)) {
        write_error_line(options.failed ? no_memory : usage);
        status = options.failed ? STATUS_FAILED : STATUS_USAGE;
    } else if (options.printed != NULL) {
        struct output output = {"rng2rnc", 1, streams.output_is_closed, NO_BYTES};
        bytes_add_text(&output.waiting, options.printed);
        output_flush(&output);
        bytes_free(&output.waiting);
    } else {
        status = run(&options, streams);
    }
    free(options.mappings);
    free(options.catalogs);
    return status;
}
