/* Names that are nearly another name. */
#ifndef NEAR_H
#define NEAR_H

#include "bytes.h"

#include <stdint.h>

#define NOT_NEAR SIZE_MAX

/* How many characters have to be changed, added or left out to make one name of the other. NOT_NEAR: more than two, or half of the first one, or more. */
size_t distance_of(struct span name, struct span other);

#endif
