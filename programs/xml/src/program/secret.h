/* Numbers that nobody who writes a document knows. */
#ifndef SECRET_H
#define SECRET_H

#include <stdint.h>

/* Chooses two of them. Without random bytes, the time and an address have to do. */
void choose_secret(uint64_t secret[2]);

#endif
