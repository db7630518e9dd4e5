/* A bar on standard error, on a terminal, for work that takes over a second. */
#ifndef PROGRESS_H
#define PROGRESS_H

#include <pthread.h>
#include <stdatomic.h>
#include <stdbool.h>
#include <stdint.h>
#include <time.h>

struct progress {
    bool is_wanted;
    bool is_shown;
    uint64_t known; /* how many documents there are; 0: not known */
    atomic_ullong done;
    atomic_ullong *bytes;
    struct timespec begun;
    atomic_llong next; /* when it is drawn again, in milliseconds from the start */
    pthread_mutex_t lock;
};

void progress_open(struct progress *progress, bool is_wanted, uint64_t known, atomic_ullong *bytes);

/* Draws the bar if it is time for that. */
void progress_tick(void *progress);

/* Removes the bar, so that a line can be written. */
void progress_hide(struct progress *progress);
void progress_close(struct progress *progress);

#endif
