/* The elements of a schema, as its simple form has them. */
#ifndef DECLARED_H
#define DECLARED_H

#include "events.h"
#include "id_form.h"

#include <rncv.h>

struct declared {
    uint8_t *text;
    struct form form;
    uint32_t time; /* of the last search */
    const uint32_t *only; /* those that an element may be which is judged alone, by their numbers */
    uint32_t only_count;
    bool is_tried;
    bool is_there;
};

/* Elements, by their numbers in the form. */
struct declared_list {
    uint32_t *numbers;
    uint32_t count, capacity;
    bool is_known;
};

/* Reads the simple form of a schema, the first time. The handle must not have a document in progress. False: there is none. */
bool declared_open(struct declared *declared, rncv_schema *schema);
void declared_close(struct declared *declared);

/* Finds the elements that a part mentions, each once. Free the list in each case. */
void declared_elements(struct declared *declared, struct part part, struct declared_list *list);
void declared_list_free(struct declared_list *list);

#endif
