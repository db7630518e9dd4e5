/* xml2pyx: writes the PYX of an XML document to standard output. */
#include "program.h"
#include "shown.h"

#include <errno.h>
#include <fcntl.h>
#include <inttypes.h>
#include <string.h>
#include <sys/stat.h>
#include <unistd.h>

static const char usage[] = "usage: xml2pyx [--dtd] [--lines FILE] DOCUMENT.xml";

static const char help[] =
    "usage: xml2pyx [--dtd] [--lines FILE] DOCUMENT.xml\n"
    "\n"
    "Writes the PYX of an XML document to standard output. `-` is standard input.\n"
    "\n"
    "  --dtd         read the external DTD and external entities, from files\n"
    "  --lines FILE  write here, for each line of the PYX, `LINE COLUMN` of the XML\n"
    "  --help        this text\n"
    "  --version     the version\n"
    "\n"
    "Exit status: 0; 2 if the XML is malformed or outside the profile, and what was written is to be thrown away; 4 if a file or a\n"
    "device failed; 5 for wrong words; 130 after Ctrl-C; 141 if the output is closed.\n";

struct options {
    const char *document;
    const char *lines;
    const char *printed; /* a text to print instead */
    bool loads_dtd;
};

/* False: the words are wrong. */
static bool options_of(int count, char **words, struct options *options) {
    bool is_option = true;
    *options = (struct options){NULL, NULL, NULL, false};
    for (int at = 1; at < count; at++) {
        const char *word = words[at];
        if (is_option && strcmp(word, "--") == 0) {
            is_option = false;
        } else if (is_option && (strcmp(word, "--help") == 0 || strcmp(word, "-h") == 0)) {
            options->printed = help;
        } else if (is_option && strcmp(word, "--version") == 0) {
            options->printed = "xml2pyx " PROGRAM_VERSION "\n";
        } else if (is_option && strcmp(word, "--dtd") == 0) {
            options->loads_dtd = true;
        } else if (is_option && strcmp(word, "--lines") == 0 && at + 1 < count) {
            options->lines = words[++at];
        } else if (is_option && strncmp(word, "--lines=", 8) == 0) {
            options->lines = word + 8;
        } else if ((is_option && word[0] == '-' && word[1] != '\0') || options->document != NULL) {
            return false;
        } else {
            options->document = word;
        }
    }
    return options->printed != NULL || options->document != NULL;
}

struct writing {
    const char *document;
    struct output pyx;
    struct output lines; /* without a file if no places are wanted */
    bool is_note_lost;   /* for want of memory */
};

static bool put(void *context, const struct piece *piece) {
    struct writing *writing = context;
    bytes_add(&writing->pyx.waiting, piece->bytes, piece->length);
    output_flush(&writing->pyx);
    if (writing->lines.file >= 0) {
        for (size_t at = 0; at < piece->count; at++) {
            bytes_format(&writing->lines.waiting, "%" PRIu64 " %" PRIu64 "\n", piece->places[at].line, piece->places[at].column);
        }
        output_flush(&writing->lines);
    }
    return true;
}

/* Writes words to standard error, as a line in which control characters are shown. Frees the words. False: out of memory. */
static bool report_words(struct bytes *words) {
    struct bytes line = NO_BYTES;
    add_shown(&line, words->data, words->length, SIZE_MAX);
    const char *text = bytes_text(&line);
    bool is_good = !words->failed && !line.failed;
    if (is_good) {
        write_error_line(text);
    }
    bytes_free(&line);
    bytes_free(words);
    return is_good;
}

static void note(void *context, struct place place, const char *what) {
    struct writing *writing = context;
    struct bytes words = NO_BYTES;
    bytes_format(&words, "%s:%" PRIu64 ":%" PRIu64 ": note: %s", writing->document, place.line, place.column, what);
    writing->is_note_lost |= !report_words(&words);
}

/* Reports a fault, and returns the exit status. */
static int report_fault(const char *document, struct fault *fault) {
    struct bytes words = NO_BYTES;
    if (fault->kind == FAULT_NONE) {
        return STATUS_VALID;
    }
    const char *what = fault->kind == FAULT_MEMORY ? "out of memory" : bytes_text(&fault->what);
    bool is_document = fault->kind == FAULT_MALFORMED || fault->kind == FAULT_OUTSIDE;
    if (is_document) {
        bytes_format(&words, "%s:%" PRIu64 ":%" PRIu64 ": %s", document, fault->place.line, fault->place.column, what);
    } else if (strcmp(document, "-") == 0) {
        bytes_format(&words, "xml2pyx: %s", what);
    } else {
        bytes_format(&words, "xml2pyx: %s: %s", what, document);
    }
    bool is_told = report_words(&words);
    if (!is_told) {
        write_error_line("xml2pyx: out of memory");
    }
    return is_document && is_told ? STATUS_MALFORMED : STATUS_FAILED;
}

/* Whether the file of the places is that of the document. */
static bool is_document(const struct options *options) {
    struct stat document;
    struct stat lines;
    bool is_input = strcmp(options->document, "-") == 0;
    bool is_there = (is_input ? fstat(0, &document) : stat(options->document, &document)) == 0 && stat(options->lines, &lines) == 0;
    return is_there && S_ISREG(lines.st_mode) && lines.st_dev == document.st_dev && lines.st_ino == document.st_ino;
}

/* Opens the file of the places; -1: the fault says why not. */
static int open_lines(const struct options *options, struct fault *fault) {
    if (is_document(options)) {
        fault_set(fault, FAULT_DEVICE, (struct place){0, 0}, "the places would replace the document");
        return -1;
    }
    int file = open(options->lines, O_WRONLY | O_CREAT | O_TRUNC | O_CLOEXEC | O_NOCTTY, 0666);
    if (file < 0) {
        fault_set(fault, FAULT_DEVICE, (struct place){0, 0}, "%s", strerror(errno));
    }
    return file;
}

static int run(const struct options *options, struct streams streams) {
    struct writing writing = {options->document, {"xml2pyx", 1, streams.output_is_closed, NO_BYTES}, {"xml2pyx", -1, false, NO_BYTES}, false};
    struct fault fault = NO_FAULT;
    struct source source;
    if (options->lines != NULL) {
        writing.lines.file = open_lines(options, &fault);
        if (writing.lines.file < 0) {
            int status = report_fault(options->lines, &fault);
            fault_free(&fault);
            return status;
        }
    }
    if (source_open(&source, options->document, streams, &fault)) {
        const struct byte_source bytes = {source_read, &source, options->loads_dtd ? beside(options->document) : NULL};
        convert(&bytes, &(struct pyx_sink){put, note, &writing}, &fault);
        source_close(&source);
    }
    if (writing.lines.file >= 0 && close(writing.lines.file) != 0) {
        fault_set(&fault, FAULT_DEVICE, (struct place){0, 0}, "%s", strerror(errno));
    }
    if (writing.is_note_lost) {
        fault_set(&fault, FAULT_MEMORY, (struct place){0, 0}, "out of memory");
    }
    int status = report_fault(options->document, &fault);
    bytes_free(&writing.pyx.waiting);
    bytes_free(&writing.lines.waiting);
    fault_free(&fault);
    return status;
}

int main(int count, char **words) {
    struct streams streams = program_begins();
    struct options options;
    if (!options_of(count, words, &options)) {
        write_error_line(usage);
        return STATUS_USAGE;
    }
    if (options.printed != NULL) {
        struct output output = {"xml2pyx", 1, streams.output_is_closed, NO_BYTES};
        bytes_add_text(&output.waiting, options.printed);
        output_flush(&output);
        bytes_free(&output.waiting);
        return STATUS_VALID;
    }
    return run(&options, streams);
}
