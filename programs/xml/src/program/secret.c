#include "secret.h"

#include <string.h>
#include <time.h>
#ifdef __linux__
#include <sys/random.h>
#endif

void choose_secret(uint64_t secret[2]) {
    struct timespec now = {0, 0};
    clock_gettime(CLOCK_REALTIME, &now);
    secret[0] = (uint64_t)now.tv_nsec ^ ((uint64_t)now.tv_sec << 32);
    secret[1] = (uint64_t)(uintptr_t)secret;
#ifdef __linux__
    uint64_t random[2];
    if (getrandom(random, sizeof random, GRND_NONBLOCK) == (ssize_t)sizeof random) {
        memcpy(secret, random, sizeof random);
    }
#endif
}
