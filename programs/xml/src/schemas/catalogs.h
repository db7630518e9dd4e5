/* OASIS XML Catalogs: the files that URIs mean. The entries uri, rewriteURI, delegateURI and nextCatalog are read, in groups too. Nothing is fetched. */
#ifndef CATALOGS_H
#define CATALOGS_H

#include "fault.h"

/* Catalogs, in the order in which they are asked. */
struct catalogs {
    struct bytes *paths;
    size_t count;
    size_t given; /* so many of them were named by the user, and have to be there */
};

/* Takes the catalogs that are given, and then those that the environment names (XML_CATALOG_FILES, with blanks between them), or else /etc/xml/catalog.
 * False: out of memory. */
bool catalogs_open(struct catalogs *catalogs, const char *const *given, size_t count, const char *environment);
void catalogs_close(struct catalogs *catalogs);

/* Adds the path of the file that the catalogs have for the URI, or nothing. False: the fault says why a catalog that was given cannot be read, and `where`
 * is its path. */
bool catalogs_find(const struct catalogs *catalogs, struct span uri, struct bytes *path, struct bytes *where, struct fault *fault);

#endif
