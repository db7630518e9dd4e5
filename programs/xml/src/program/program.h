/* How the programs read, write and end. */
#ifndef PROGRAM_H
#define PROGRAM_H

#include "bytes.h"
#include "conversion.h"

#include <signal.h>
#include <stdint.h>

#define PROGRAM_VERSION "0.9.0"

/* The exit statuses. The greatest of them is the program's. */
enum {
    STATUS_VALID = 0,
    STATUS_INVALID = 1,
    STATUS_MALFORMED = 2,
    STATUS_REFUSED = 3,
    STATUS_FAILED = 4,
    STATUS_USAGE = 5,
    STATUS_INTERRUPTED = 130,
    STATUS_CLOSED_PIPE = 141
};

/* Whether a bar is on the terminal. Ctrl-C removes it, so the handler of the signal has to know this, and nothing else. */
extern volatile sig_atomic_t bar_is_shown;

/* Which of the standard streams were closed when the program began. */
struct streams {
    bool input_is_closed;
    bool output_is_closed;
};

/* Fills the places of closed standard streams, so that no file takes them. Sets the signals: Ctrl-C ends the program with 130. */
struct streams program_begins(void);

/* Where lines go. They are collected, and output_flush writes them. */
struct output {
    const char *program;
    int file;
    bool is_closed; /* since the program began */
    struct bytes waiting;
};

/* Writes what was collected. If that fails, the program ends here: with 141 if the output is a closed pipe, else with a line and 4. */
void output_flush(struct output *output);

/* Writes all bytes. False: `errno` says why not. */
bool write_all(int file, const char *bytes, size_t length);

/* Writes a line to standard error, if that is there. */
void write_error_line(const char *line);

/* Where a document's bytes come from: a file, or standard input if the name is `-`. */
struct source {
    int file;
    bool is_open;
    bool is_input;
    int64_t begin; /* where standard input begins, if it is a file */
};

/* False: the fault says why. */
bool source_open(struct source *source, const char *name, struct streams streams, struct fault *fault);
bool source_read(void *source, char *bytes, size_t size, size_t *length, struct fault *fault);
/* Goes back to where the document begins. False: it is no file, or that failed. */
bool source_rewind(struct source *source);
void source_close(struct source *source);

/* The path beside which the files are that a document of this name mentions. Those of standard input are in the current folder. */
const char *beside(const char *name);

#endif
