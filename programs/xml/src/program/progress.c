#include "progress.h"

#include "program.h"

#include <unistd.h>

enum { FIRST_AFTER = 1000, AGAIN_AFTER = 100, WIDTH = 24 };

static long long milliseconds_since(const struct timespec *begun) {
    struct timespec now;
    if (clock_gettime(CLOCK_MONOTONIC, &now) != 0) {
        return 0;
    }
    return (long long)(now.tv_sec - begun->tv_sec) * 1000 + (now.tv_nsec - begun->tv_nsec) / 1000000;
}

void progress_open(struct progress *progress, bool is_wanted, uint64_t known, atomic_ullong *bytes) {
    progress->is_wanted = is_wanted && clock_gettime(CLOCK_MONOTONIC, &progress->begun) == 0;
    progress->is_shown = false;
    progress->known = known;
    progress->bytes = bytes;
    atomic_init(&progress->done, 0);
    atomic_init(&progress->next, FIRST_AFTER);
    progress->is_wanted = pthread_mutex_init(&progress->lock, NULL) == 0 && progress->is_wanted;
}

/* Writes to the terminal. A bar that cannot be drawn is no fault. */
static void draw(const struct bytes *line) {
    if (!line->failed && write(2, line->data, line->length) < 0) {
        return;
    }
}

static void add_bar(struct bytes *line, uint64_t done, uint64_t known) {
    uint64_t full = done >= known ? WIDTH : done * WIDTH / known;
    bytes_add_byte(line, '[');
    for (uint64_t at = 0; at < WIDTH; at++) {
        bytes_add_byte(line, at < full ? '#' : '.');
    }
    bytes_add_text(line, "] ");
}

void progress_tick(void *context) {
    struct progress *progress = context;
    if (!progress->is_wanted) {
        return;
    }
    long long now = milliseconds_since(&progress->begun);
    long long next = atomic_load_explicit(&progress->next, memory_order_relaxed);
    if (now < next || !atomic_compare_exchange_strong(&progress->next, &next, now + AGAIN_AFTER)) {
        return;
    }
    struct bytes line = NO_BYTES;
    unsigned long long done = atomic_load(&progress->done);
    bytes_add_byte(&line, '\r');
    if (progress->known > 1) {
        add_bar(&line, done, progress->known);
    }
    bytes_add_count(&line, done);
    if (progress->known > 0) {
        bytes_add_text(&line, " of ");
        bytes_add_count(&line, progress->known);
    }
    bytes_add_text(&line, " documents, ");
    bytes_add_count(&line, atomic_load(progress->bytes) / 1000000);
    bytes_add_text(&line, " MB\033[K");
    pthread_mutex_lock(&progress->lock);
    progress->is_shown = true;
    bar_is_shown = 1;
    draw(&line);
    pthread_mutex_unlock(&progress->lock);
    bytes_free(&line);
}

void progress_hide(struct progress *progress) {
    if (!progress->is_wanted) {
        return;
    }
    pthread_mutex_lock(&progress->lock);
    if (progress->is_shown) {
        struct bytes line = NO_BYTES;
        bytes_add_text(&line, "\r\033[K");
        draw(&line);
        bytes_free(&line);
        progress->is_shown = false;
        bar_is_shown = 0;
    }
    pthread_mutex_unlock(&progress->lock);
}

void progress_close(struct progress *progress) {
    progress_hide(progress);
    pthread_mutex_destroy(&progress->lock);
}
