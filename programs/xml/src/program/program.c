#include "program.h"

#include <errno.h>
#include <fcntl.h>
#include <string.h>
#include <sys/stat.h>
#include <unistd.h>

volatile sig_atomic_t bar_is_shown = 0;

static void interrupted(int number) {
    static const char line_without_bar[] = "\r\033[K";
    (void)number;
    if (bar_is_shown && write(2, line_without_bar, sizeof line_without_bar - 1) < 0) {
        _exit(STATUS_INTERRUPTED); /* the terminal is gone */
    }
    _exit(STATUS_INTERRUPTED);
}

/* Sets what a signal does, unless the program was started with the signal ignored. */
static void set_signal(int number, void (*handler)(int)) {
    struct sigaction action;
    memset(&action, 0, sizeof action);
    if (sigaction(number, NULL, &action) == 0 && action.sa_handler != SIG_IGN) {
        action.sa_handler = handler;
        sigemptyset(&action.sa_mask);
        action.sa_flags = 0;
        sigaction(number, &action, NULL);
    }
}

struct streams program_begins(void) {
    struct streams streams = {fcntl(0, F_GETFD) < 0, fcntl(1, F_GETFD) < 0};
    for (int file = 0; file <= 2; file++) {
        if (fcntl(file, F_GETFD) < 0 && open("/dev/null", O_RDWR) < 0) {
            break; /* without this device no place is filled, and reads and writes fail by themselves */
        }
    }
    set_signal(SIGINT, interrupted);
    set_signal(SIGPIPE, SIG_IGN);
    set_signal(SIGXFSZ, SIG_IGN); /* a file that gets too large is an error of the write */
    return streams;
}

bool write_all(int file, const char *bytes, size_t length) {
    while (length > 0) {
        ssize_t written = write(file, bytes, length);
        if (written < 0 && errno == EINTR) {
            continue;
        }
        if (written <= 0) {
            errno = written == 0 ? EIO : errno;
            return false;
        }
        bytes += written;
        length -= (size_t)written;
    }
    return true;
}

void write_error_line(const char *line) {
    struct bytes bytes = NO_BYTES;
    bytes_add_text(&bytes, line);
    bytes_add_byte(&bytes, '\n');
    if (!bytes.failed) {
        write_all(2, bytes.data, bytes.length);
    } else if (write_all(2, line, strlen(line))) {
        write_all(2, "\n", 1);
    }
    bytes_free(&bytes);
}

/* Ends the program, since its output cannot be written. */
static void end_of_output(const struct output *output, const char *why, int error) {
    struct bytes line = NO_BYTES;
    if (error == EPIPE) {
        _exit(STATUS_CLOSED_PIPE);
    }
    bytes_format(&line, "%s: %s", output->program, why);
    const char *text = bytes_text(&line);
    if (line.failed && write_all(2, output->program, strlen(output->program)) && write_all(2, ": ", 2)) {
        text = why;
    }
    write_error_line(text);
    _exit(STATUS_FAILED);
}

void output_flush(struct output *output) {
    if (output->waiting.failed) {
        end_of_output(output, "out of memory", 0);
    }
    if (output->waiting.length == 0) {
        return;
    }
    if (output->is_closed) {
        end_of_output(output, "standard output is closed", 0);
    }
    if (!write_all(output->file, output->waiting.data, output->waiting.length)) {
        int error = errno;
        end_of_output(output, strerror(error), error);
    }
    bytes_clear(&output->waiting);
}

bool source_open(struct source *source, const char *name, struct streams streams, struct fault *fault) {
    *source = (struct source){0, true, strcmp(name, "-") == 0, 0};
    if (source->is_input && streams.input_is_closed) {
        fault_set(fault, FAULT_DEVICE, (struct place){0, 0}, "standard input is closed");
        source->is_open = false;
        return false;
    }
    if (!source->is_input) {
        source->file = open(name, O_RDONLY | O_CLOEXEC | O_NOCTTY);
        source->is_open = source->file >= 0;
    } else {
        source->begin = (int64_t)lseek(0, 0, SEEK_CUR);
    }
    if (!source->is_open) {
        fault_set(fault, FAULT_DEVICE, (struct place){0, 0}, "%s", strerror(errno));
        return false;
    }
    return true;
}

bool source_read(void *context, char *bytes, size_t size, size_t *length, struct fault *fault) {
    const struct source *source = context;
    ssize_t count;
    do {
        count = read(source->file, bytes, size);
    } while (count < 0 && errno == EINTR);
    if (count < 0) {
        fault_set(fault, FAULT_DEVICE, (struct place){0, 0}, "%s", strerror(errno));
        return false;
    }
    *length = (size_t)count;
    return true;
}

bool source_rewind(struct source *source) {
    struct stat found;
    bool is_file = source->is_open && source->begin >= 0 && fstat(source->file, &found) == 0 && S_ISREG(found.st_mode);
    return is_file && lseek(source->file, (off_t)source->begin, SEEK_SET) == (off_t)source->begin;
}

void source_close(struct source *source) {
    if (source->is_open && !source->is_input) {
        close(source->file);
    }
    source->is_open = false;
}

const char *beside(const char *name) {
    return strcmp(name, "-") == 0 ? "./-" : name;
}
