#include "clause_page.h"

#include <string.h>
#include <unistd.h>

static const char installed[] = "share/doc/rncv/" CLAUSE_PAGE;

/* The length of the path without its last name and the slash before it; 0: there is no slash. */
static size_t folder_length(const char *path, size_t length) {
    while (length > 0 && path[length - 1] != '/') {
        length--;
    }
    return length > 0 ? length - 1 : 0;
}

const char *find_clause_page(char *room, size_t size) {
    ssize_t length = readlink("/proc/self/exe", room, size);
    if (length <= 0 || (size_t)length >= size) {
        return CLAUSE_PAGE; /* it may be cut, or there is no /proc */
    }
    size_t top = folder_length(room, folder_length(room, (size_t)length)); /* PREFIX of PREFIX/bin/rncv-xml */
    if (top + 1 + sizeof installed > size) {
        return CLAUSE_PAGE;
    }
    room[top] = '/';
    memcpy(room + top + 1, installed, sizeof installed);
    return access(room, R_OK) == 0 ? room : CLAUSE_PAGE;
}
