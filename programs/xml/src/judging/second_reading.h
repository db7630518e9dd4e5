/* Reads an invalid document once more, and tells further faults: each element behind the first fault is judged by itself. */
#ifndef SECOND_READING_H
#define SECOND_READING_H

#include "alone_schema.h"
#include "judging.h"

/* What a thread keeps for it. */
struct second;

/* Adds hints to the answer, whose fault is at the start or end with this number. Where it cannot tell them, because of a limit or of memory, there are fewer or
 * none. The judge has no document in progress that is still wanted. */
void second_reading(struct judge *judge, const struct byte_source *source, uint64_t number, struct answer *answer);

void second_free(struct second *second);

#endif
