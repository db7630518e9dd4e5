/* Conversions in threads other than the first, with each growth of memory of the thread refused in turn, also those that libxml2 takes by itself: none
 * crashes, each says that memory ran out or converts the document, and the next one in the same thread converts it. libxml2 writes a line to standard
 * error where it has no memory for the values of a thread. */
#include "conversion.h"

#include <errno.h>
#include <pthread.h>
#include <stdio.h>
#include <stdlib.h>
#include <string.h>

/* After this many growths of this thread one is refused; -1: none is. */
static _Thread_local long left = -1;

extern void *__libc_malloc(size_t size);
extern void *__libc_calloc(size_t count, size_t size);
extern void *__libc_realloc(void *old, size_t size);

static bool is_refused(void) {
    if (left < 0) {
        return false;
    }
    left--;
    errno = ENOMEM;
    return left < 0;
}

void *malloc(size_t size) {
    return is_refused() ? NULL : __libc_malloc(size);
}

void *calloc(size_t count, size_t size) {
    return is_refused() ? NULL : __libc_calloc(count, size);
}

void *realloc(void *old, size_t size) {
    return is_refused() ? NULL : __libc_realloc(old, size);
}

static const char document[] = "<!DOCTYPE a [<!ENTITY e 'f'><!ENTITY g '&e;<b/>'><!ENTITY % p ''><!ENTITY % q '&#37;p;'> %q; <!ATTLIST a y CDATA '1'>]>"
                               "<a x='1'>&g;</a>";
static const char wanted[] = "(a\nAx 1\nAy 1\n-f\n(b\n)b\n)a\n";

/* What a conversion gave, and how much of the document it has read. */
struct run {
    long after; /* how many growths come before the one that is refused; -1: none is refused */
    size_t read;
    char pyx[200];
    size_t length;
    struct fault fault;
    bool was_refused;
};

static bool give(void *context, char *bytes, size_t size, size_t *length, struct fault *fault) {
    struct run *run = context;
    size_t rest = strlen(document) - run->read;
    (void)fault;
    *length = rest < size ? rest : size;
    memcpy(bytes, document + run->read, *length);
    run->read += *length;
    return true;
}

static bool take(void *context, const struct piece *piece) {
    struct run *run = context;
    if (run->length + piece->length < sizeof run->pyx) {
        memcpy(run->pyx + run->length, piece->bytes, piece->length);
    }
    run->length += piece->length;
    return true;
}

static void ignore_note(void *context, struct place place, const char *what) {
    (void)context;
    (void)place;
    (void)what;
}

static void convert_once(struct run *run) {
    *run = (struct run){.after = run->after};
    left = run->after;
    convert(&(struct byte_source){give, run, NULL}, &(struct pyx_sink){take, ignore_note, run}, &run->fault);
    run->was_refused = run->after >= 0 && left < 0;
    left = -1;
}

static bool is_whole(const struct run *run) {
    return run->fault.kind == FAULT_NONE && run->length == strlen(wanted) && memcmp(run->pyx, wanted, run->length) == 0;
}

/* Converts with a growth refused and then with none. Returns NULL if both did what they have to. */
static void *convert_twice(void *context) {
    struct run *run = context;
    struct run next = {.after = -1};
    convert_once(run);
    convert_once(&next);
    bool is_good = is_whole(&next) && (is_whole(run) || (run->was_refused && run->fault.kind == FAULT_MEMORY));
    fault_free(&run->fault);
    fault_free(&next.fault);
    return is_good ? NULL : context;
}

int main(void) {
    struct run run = {.after = -1};
    void *failed = convert_twice(&run); /* the first thread of libxml2 is this one */
    run.after = 0;
    while (failed == NULL && (run.was_refused || run.after == 0) && run.after < 100000) {
        pthread_t thread;
        if (pthread_create(&thread, NULL, convert_twice, &run) != 0 || pthread_join(thread, &failed) != 0) {
            return EXIT_FAILURE;
        }
        run.after++;
    }
    bool is_good = failed == NULL && run.after > 20 && run.after < 100000;
    printf("thread_memory_test: %s, %ld growths\n", is_good ? "ok" : "FAILED", run.after - 1);
    return is_good ? EXIT_SUCCESS : EXIT_FAILURE;
}
