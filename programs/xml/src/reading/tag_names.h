/* Whether a tag keeps to Namespaces in XML. */
#ifndef TAG_NAMES_H
#define TAG_NAMES_H

#include "events.h"

/* Whether the tag has a declaration that is not allowed, and why. */
bool tag_has_forbidden(const struct start_event *tag, struct bytes *words);

/* The clause that the tag breaks, 6, 11 or 12, and why, in the words of XML; 0: none. `has_bad_name`: a name may be no QName. `has_double`: two attributes
 * may have one name; only then are they compared. */
int tag_names_fault(const struct start_event *tag, bool has_bad_name, bool has_double, struct bytes *words);

#endif
