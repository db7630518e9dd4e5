/* Has libxml2 read the texts of entities as it reads the document (inclusions.h). */
#ifndef INCLUDING_H
#define INCLUDING_H

#include "feed.h"

/* Includes the entity with this text, behind the reference at which libxml2 is. It is outside of other markup, and reads the document. The text stays where
 * it is, unless it has bytes of its own: these are taken. */
void feed_include(struct feed *feed, const void *entity, struct span text, struct bytes *own);

/* Reads more of the innermost text, as long as there is one. False: there is a fault. */
bool feed_read_included(struct feed *feed);

/* Ends the innermost entity at the reference with the secret name, which libxml2 has just read. */
void feed_end_inclusion(struct feed *feed);

/* Refuses the document: what begins in the innermost entity does not end there, or the other way. */
void feed_refuse_unbalanced(struct feed *feed);

/* Refuses markup that libxml2 has just read if it goes on behind the innermost entity. */
void feed_check_inclusion(struct feed *feed);

#endif
