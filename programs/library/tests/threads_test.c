/* Four threads, each with its own handle on one schema. */
#include "testing.h"

#include <pthread.h>

enum { THREADS = 4 };

static int wrong[THREADS];

struct work {
    rncv_schema schema;
    int number;
};

static void *judge_many(void *given) {
    struct work *work = given;
    int count = is_quick() ? 50 : 2500;

    for (int i = 0; i < count; i++) {
        int is_good = (i + work->number) % 2 == 0;
        rncv_verdict verdict = {7, 7, 7};
        if (rncv_document_begin(&work->schema) != RNCV_DONE || feed(&work->schema, "(a\n(b\n-x\n)b\n") != RNCV_DONE ||
            feed(&work->schema, is_good ? ")a\n" : "(c\n)c\n)a\n") != RNCV_DONE ||
            rncv_document_end(&work->schema, &verdict) != RNCV_DONE || verdict.kind != (is_good ? RNCV_VALID : RNCV_INVALID)) {
            wrong[work->number] += 1;
        }
    }
    rncv_schema_free(&work->schema);
    return NULL;
}

int main(void) {
    rncv_schema schema = RNCV_NOTHING;
    struct work works[THREADS];
    pthread_t threads[THREADS];

    CHECK(compile("element a { element b { text }* }", &schema) == RNCV_DONE);
    for (int i = 0; i < THREADS; i++) {
        works[i] = (struct work){RNCV_NOTHING, i};
        CHECK(rncv_schema_share(&schema, &works[i].schema) == RNCV_DONE);
        CHECK(pthread_create(&threads[i], NULL, judge_many, &works[i]) == 0);
    }
    rncv_schema_free(&schema);
    for (int i = 0; i < THREADS; i++) {
        CHECK(pthread_join(threads[i], NULL) == 0);
        CHECK(wrong[i] == 0);
    }
    return outcome("threads");
}
