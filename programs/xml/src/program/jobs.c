#include "jobs.h"

#include <pthread.h>
#include <stdlib.h>
#include <string.h>

enum {
    WINDOW_OF_EACH = 32,  /* for each thread, the documents that may be done before the next one is reported */
    STACK_BYTES = 8388608 /* for a thread: libxml2 calls itself for an entity in an entity */
};

/* A document and its answer, until it is reported. */
struct slot {
    struct document document;
    struct answer answer;
    bool is_done;
};

/* A thread that takes a document has the turn, and may wait for the document's name: so it does not have the lock meanwhile, and the others report. */
struct jobs {
    pthread_mutex_t turn;
    pthread_mutex_t lock; /* of what is below `documents` */
    pthread_cond_t room;  /* a slot has become free */
    struct documents *documents;
    struct shared *shared;
    struct report *report;
    struct slot *slots;
    uint64_t window;
    uint64_t taken;
    uint64_t reported;
};

static void judge_one(struct judge *judge, struct slot *slot) {
    slot->answer = (struct answer)NO_ANSWER;
    if (slot->document.is_failed) {
        bytes_add(&slot->answer.message, slot->document.why.data, slot->document.why.length);
    } else if (slot->document.name != NULL) {
        judge_document(judge, slot->document.name, &slot->answer);
    }
}

static void report_one(struct report *report, struct slot *slot) {
    report_answer(report, slot->document.name == NULL ? "?" : slot->document.name, &slot->answer);
    answer_free(&slot->answer);
    document_free(&slot->document);
}

/* Waits for a free slot. */
static void wait_for_room(struct jobs *jobs) {
    pthread_mutex_lock(&jobs->lock);
    while (jobs->taken - jobs->reported >= jobs->window) {
        pthread_cond_wait(&jobs->room, &jobs->lock);
    }
    pthread_mutex_unlock(&jobs->lock);
}

/* Takes the next document into a slot. NULL: there is none. */
static struct slot *take(struct jobs *jobs) {
    struct document document;
    struct slot *slot = NULL;
    pthread_mutex_lock(&jobs->turn);
    wait_for_room(jobs);
    if (documents_next(jobs->documents, &document)) {
        pthread_mutex_lock(&jobs->lock);
        slot = &jobs->slots[jobs->taken++ % jobs->window];
        slot->document = document;
        slot->is_done = false;
        pthread_mutex_unlock(&jobs->lock);
    }
    pthread_mutex_unlock(&jobs->turn);
    return slot;
}

/* Marks a slot as done. Reports the next documents that are done, in their order. */
static void give_back(struct jobs *jobs, struct slot *slot) {
    pthread_mutex_lock(&jobs->lock);
    slot->is_done = true;
    while (jobs->reported < jobs->taken && jobs->slots[jobs->reported % jobs->window].is_done) {
        struct slot *next = &jobs->slots[jobs->reported % jobs->window];
        report_one(jobs->report, next);
        next->is_done = false;
        jobs->reported++;
    }
    pthread_cond_broadcast(&jobs->room);
    pthread_mutex_unlock(&jobs->lock);
}

static void *work(void *context) {
    struct judge *judge = context;
    struct jobs *jobs = judge->shared->jobs;
    struct slot *slot;
    while ((slot = take(jobs)) != NULL) {
        judge_one(judge, slot);
        give_back(jobs, slot);
    }
    return NULL;
}

/* Judges in this thread alone. */
static bool run_alone(struct documents *documents, struct shared *shared, struct report *report) {
    struct judge judge;
    struct slot slot;
    if (!judge_open(&judge, shared)) {
        return false;
    }
    while (documents_next(documents, &slot.document)) {
        judge_one(&judge, &slot);
        report_one(report, &slot);
    }
    judge_close(&judge);
    return true;
}

/* Starts the threads that can be started, and waits for them. Returns how many there were. */
static unsigned run_threads(struct judge *judges, unsigned count) {
    pthread_t *threads = calloc(count, sizeof *threads);
    pthread_attr_t attributes;
    unsigned begun = 0;
    if (threads == NULL || pthread_attr_init(&attributes) != 0) {
        free(threads);
        return 0;
    }
    if (pthread_attr_setstacksize(&attributes, STACK_BYTES) == 0) {
        while (begun < count && pthread_create(&threads[begun], &attributes, work, &judges[begun]) == 0) {
            begun++;
        }
    }
    for (unsigned at = 0; at < begun; at++) {
        pthread_join(threads[at], NULL);
    }
    pthread_attr_destroy(&attributes);
    free(threads);
    return begun;
}

static bool run_side_by_side(struct jobs *jobs, unsigned count) {
    struct judge *judges = calloc(count, sizeof *judges);
    unsigned opened = 0;
    jobs->slots = calloc(jobs->window, sizeof *jobs->slots);
    while (judges != NULL && jobs->slots != NULL && opened < count && judge_open(&judges[opened], jobs->shared)) {
        opened++;
    }
    bool is_good = opened > 0 && run_threads(judges, opened) > 0;
    for (unsigned at = 0; at < opened; at++) {
        judge_close(&judges[at]);
    }
    free(judges);
    free(jobs->slots);
    return is_good;
}

/* Makes the locks and the condition. False: nothing is left of them. */
static bool open_locks(struct jobs *jobs) {
    if (pthread_mutex_init(&jobs->turn, NULL) != 0) {
        return false;
    }
    if (pthread_mutex_init(&jobs->lock, NULL) == 0) {
        if (pthread_cond_init(&jobs->room, NULL) == 0) {
            return true;
        }
        pthread_mutex_destroy(&jobs->lock);
    }
    pthread_mutex_destroy(&jobs->turn);
    return false;
}

static void close_locks(struct jobs *jobs) {
    pthread_cond_destroy(&jobs->room);
    pthread_mutex_destroy(&jobs->lock);
    pthread_mutex_destroy(&jobs->turn);
}

bool jobs_run(struct documents *documents, struct shared *shared, struct report *report, unsigned threads) {
    struct jobs jobs;
    if (threads <= 1 || documents->known == 1) {
        return run_alone(documents, shared, report);
    }
    memset(&jobs, 0, sizeof jobs);
    jobs.documents = documents;
    jobs.shared = shared;
    jobs.report = report;
    jobs.window = (uint64_t)WINDOW_OF_EACH * threads;
    shared->jobs = &jobs;
    if (!open_locks(&jobs)) {
        return run_alone(documents, shared, report);
    }
    bool is_good = run_side_by_side(&jobs, threads);
    close_locks(&jobs);
    return is_good || run_alone(documents, shared, report);
}
