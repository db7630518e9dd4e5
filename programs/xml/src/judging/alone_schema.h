/* The schemas that judge an element of a document by itself: its child elements count by their names alone. */
#ifndef ALONE_SCHEMA_H
#define ALONE_SCHEMA_H

#include "declared.h"

#include <pthread.h>

struct alone_schema {
    bool is_tried;
    bool is_there;
    rncv_schema schema;
};

/* Each is made when it is first wanted, for all threads. */
struct alone_schemas {
    pthread_mutex_t lock;
    uint32_t datatypes; /* the set that the schema was compiled with */
    struct alone_schema whole;   /* the root is `kN`, and in it is the element N of the simple form, whose child elements have neither attributes nor content */
    struct alone_schema content; /* the same, and the element N has no attributes either */
};

/* False: there is no lock. */
bool alone_schemas_open(struct alone_schemas *schemas, uint32_t datatypes);
void alone_schemas_close(struct alone_schemas *schemas);

/* Makes a handle on one of them, by the simple form of the schema, which is open. False: there is none, since it breaks a limit, or memory ran out. */
bool alone_schemas_share(struct alone_schemas *schemas, const struct declared *declared, bool has_attributes, rncv_schema *schema);

#endif
