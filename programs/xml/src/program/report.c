#include "report.h"

#include "formats.h"
#include "source_line.h"

#include <inttypes.h>
#include <stdlib.h>
#include <string.h>
#include <unistd.h>

static const char *const verdicts[] = {"valid", "invalid", "malformed", "outside", "failed"};

/* Whether the output is coloured: by default on a terminal, unless NO_COLOR says no. */
static bool wants_color(const struct options *options) {
    const char *none = getenv("NO_COLOR");
    const char *terminal = getenv("TERM");
    if (options->format != FORMAT_TEXT || options->color == WHEN_NEVER) {
        return false;
    }
    if (options->color == WHEN_ALWAYS) {
        return true;
    }
    return isatty(1) && (none == NULL || none[0] == '\0') && terminal != NULL && strcmp(terminal, "dumb") != 0;
}

/* Whether lines of documents are shown: by default on a terminal. */
static bool wants_source(const struct options *options) {
    return options->format == FORMAT_TEXT && options->source != WHEN_NEVER && (options->source == WHEN_ALWAYS || isatty(1));
}

void report_open(struct report *report, const struct options *options, struct output *output, struct progress *progress) {
    memset(report, 0, sizeof *report);
    report->options = options;
    report->output = output;
    report->progress = progress;
    report->has_color = wants_color(options);
    report->has_source = wants_source(options) && !options->is_quiet;
    if (options->format == FORMAT_SARIF && !options->is_quiet) {
        add_sarif_head(&output->waiting, options->most_faults > 1);
    }
}

static void put(struct report *report, const struct result *result) {
    struct bytes *waiting = &report->output->waiting;
    bool is_good = result->message[0] == '\0';
    switch (report->options->format) {
    case FORMAT_JSON:
        add_json(waiting, result);
        break;
    case FORMAT_SARIF:
        if (!is_good) {
            add_sarif(waiting, result, !report->has_begun);
            report->has_begun = true;
        }
        break;
    case FORMAT_GITHUB:
        if (!is_good) {
            add_github(waiting, result);
        }
        break;
    default:
        if (!is_good || report->options->reports_all) {
            add_text(waiting, result, report->has_color);
        }
    }
    if (waiting->length > 0 || waiting->failed) {
        progress_hide(report->progress);
        output_flush(report->output);
    }
}

/* Prints a note of a document, or of the schema, by itself. As text it is for people, on standard error. An object of JSON has the notes in it. */
static void put_note(struct report *report, const char *file, struct place place, const char *what) {
    struct result result = {.file = file, .verdict = "note", .message = what, .place = place, .is_note = true, .schema_note = ""};
    if (report->options->format == FORMAT_TEXT) {
        struct bytes line = NO_BYTES;
        struct bytes message = NO_BYTES;
        bytes_format(&message, "note: %s", what);
        result.message = bytes_text(&message);
        add_text(&line, &result, false);
        line.length -= line.length > 0; /* write_error_line adds the line feed */
        report_note(report, bytes_text(&line));
        bytes_free(&message);
        bytes_free(&line);
    } else if (report->options->format != FORMAT_JSON) {
        put(report, &result);
    }
}

/* Prints a result with the line of the document, if that is wanted. Standard input cannot be read again for it. */
static void put_with_source(struct report *report, const char *name, struct result *result) {
    struct bytes source = NO_BYTES;
    if (report->has_source && result->message[0] != '\0' && strcmp(name, "-") != 0) {
        add_source_line(&source, name, result->place);
        result->source = bytes_text(&source);
    }
    put(report, result);
    bytes_free(&source);
}

/* Prints a hint behind the fault of its document. An object of JSON has the hints in it. */
static void put_hint(struct report *report, const char *name, const char *file, struct answer *hint) {
    struct result result = {.file = file, .verdict = "hint", .message = bytes_text(&hint->message), .place = hint->place, .is_note = true, .schema_note = "",
                            .answer = hint};
    if (report->options->format != FORMAT_JSON && !hint->message.failed) {
        put_with_source(report, name, &result);
    }
}

void report_answer(struct report *report, const char *name, struct answer *answer) {
    const char *file = strcmp(name, "-") == 0 ? report->options->input_name : name;
    const char *message = bytes_text(&answer->message);
    if (answer->verdict != VERDICT_VALID && message[0] == '\0') {
        message = "out of memory";
    }
    struct result result = {file, verdicts[answer->verdict], message, answer->place, answer->stands, &answer->name, answer->clause == 0 ? 0 : 'P',
                            answer->clause, false, answer->notes, answer->note_count, bytes_text(&report->schema_note), answer, ""};
    int status = status_of(answer->verdict);
    report->counts[answer->verdict]++;
    report->status = status > report->status ? status : report->status;
    atomic_fetch_add(&report->progress->done, 1);
    if (!report->options->is_quiet) {
        for (size_t at = 0; at < answer->note_count; at++) {
            put_note(report, file, answer->notes[at].place, bytes_text(&answer->notes[at].what));
        }
        put_with_source(report, name, &result);
        for (size_t at = 0; at < answer->hint_count; at++) {
            put_hint(report, name, file, &answer->hints[at]);
        }
    }
    progress_tick(report->progress);
}

void report_schema(struct report *report, const struct schema_fault *fault) {
    struct result result = {fault->path, fault->status == STATUS_REFUSED ? "refused" : "failed", fault->message, fault->place, STANDS_NOT_KNOWN, NULL,
                            fault->clause == 0 ? 0 : 'S', fault->clause, false, NULL, 0, "", NULL, ""};
    report->status = fault->status > report->status ? fault->status : report->status;
    if (!report->options->is_quiet) {
        put(report, &result);
        return;
    }
    struct bytes line = NO_BYTES;
    add_text(&line, &result, false);
    line.length -= line.length > 0; /* write_error_line adds the line feed */
    write_error_line(bytes_text(&line));
    bytes_free(&line);
}

/* Adds a note to those about the schema, and reports it by itself: as text only if `has_line` says so. */
static void add_schema_note(struct report *report, const char *path, const struct bytes *note, bool has_line) {
    size_t begin = report->schema_note.length;
    bytes_add_text(&report->schema_note, begin > 0 ? "; " : "");
    size_t own = report->schema_note.length;
    bytes_add(&report->schema_note, note->data, note->length);
    report->schema_note.failed |= note->failed;
    const char *notes = bytes_text(&report->schema_note);
    if (!report->schema_note.failed && !report->options->is_quiet && (has_line || report->options->format != FORMAT_TEXT)) {
        put_note(report, path, (struct place){0, 0}, notes + own);
    }
}

void report_schema_note(struct report *report, const char *path, const struct bytes *note) {
    add_schema_note(report, path, note, false);
}

void report_unchecked(struct report *report, const char *path, const struct bytes *note) {
    add_schema_note(report, path, note, true);
}

void report_note(struct report *report, const char *line) {
    if (!report->options->is_quiet) {
        progress_hide(report->progress);
        write_error_line(line);
    }
}

void report_close(struct report *report) {
    if (report->options->format == FORMAT_SARIF && !report->options->is_quiet) {
        add_sarif_tail(&report->output->waiting, report->status <= STATUS_MALFORMED);
    }
    progress_hide(report->progress);
    output_flush(report->output);
    bytes_free(&report->schema_note);
}
