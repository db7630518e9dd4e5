/* What the library says of itself. build.sh defines RNCV_NOT_PROVED where the archive was built without proofs. */
#include "rncv.h"

#ifdef RNCV_NOT_PROVED
#define MARK " (not proved)"
#else
#define MARK ""
#endif

const char *rncv_version(void) {
    return RNCV_VERSION MARK;
}
