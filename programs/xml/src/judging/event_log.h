/* Events, kept in few bytes, so that they can be handed to the library again. */
#ifndef EVENT_LOG_H
#define EVENT_LOG_H

#include "events.h"

struct event_log {
    struct bytes bytes;
    size_t uri; /* where the last URI is among the bytes, and .. */
    size_t uri_length;
    bool is_full; /* no more are kept */
    size_t most;  /* the most bytes that it may have */
};

void event_log_add_declarations(struct event_log *log, const struct start_event *start);
void event_log_add_start(struct event_log *log, const struct start_event *start);
void event_log_add_text(struct event_log *log, struct span text);
void event_log_add_end(struct event_log *log);

/* Adds an event. What does not fit is not kept, nor anything after it. */
static inline void event_log_start(struct event_log *log, const struct start_event *start) {
    if (!log->is_full) {
        event_log_add_start(log, start);
    }
}

/* Adds the declarations of namespaces in a tag, each as an event before its start. Most tags have none. */
static inline void event_log_declarations(struct event_log *log, const struct start_event *start) {
    if (start->declaration_count > 0 && !log->is_full) {
        event_log_add_declarations(log, start);
    }
}

static inline void event_log_text(struct event_log *log, struct span text) {
    if (!log->is_full) {
        event_log_add_text(log, text);
    }
}

static inline void event_log_end(struct event_log *log) {
    if (!log->is_full) {
        event_log_add_end(log);
    }
}

void event_log_clear(struct event_log *log);
void event_log_free(struct event_log *log);

enum logged_kind {
    LOGGED_START = 1,
    LOGGED_TEXT,
    LOGGED_END,
    LOGGED_DECLARATION
};

/* An event of the log. */
struct logged {
    enum logged_kind kind;
    struct event_name name; /* of a start; of a declaration the prefix and the URI */
    size_t count;           /* of its attributes, which are in the reader */
    struct span text;
};

/* What reads a log from its beginning. */
struct log_reader {
    struct span left;
    struct span uri;
    struct event_attribute *attributes;
    size_t capacity;
    bool failed; /* memory ran out */
};

void log_reader_open(struct log_reader *reader, const struct event_log *log, size_t length);
/* Reads the next event. False: there is none, or memory ran out. */
bool log_reader_next(struct log_reader *reader, struct logged *event);
void log_reader_close(struct log_reader *reader);

#endif
