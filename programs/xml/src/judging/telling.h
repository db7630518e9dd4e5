/* Says what is wrong at the place where a document is invalid, and what was expected there. */
#ifndef TELLING_H
#define TELLING_H

#include "finding.h"
#include "judging.h"

/* Fills `place`, `stands` and `name` of the answer, adds to its message what is wrong, and fills what was expected. The judge has the scope of the place. A
 * document in progress is dropped. */
void tell(struct judge *judge, const struct finding *found, struct answer *answer);

#endif
