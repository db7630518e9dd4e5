/* The floor: cuts a document into lines, keeps the names of open elements, looks names up, and replaces escapes. It judges
   nothing but end tags, so no reader of documents can do less. Prints what it counted. */
#include <stdio.h>
#include <stdlib.h>
#include <string.h>
#include <unistd.h>

#define PIECE 65536
#define OPEN 512

static char piece[2 * PIECE], text[PIECE], *open_names[OPEN];
static size_t lengths[OPEN], depth, counts[256], bytes, known;
static unsigned table[4096];

/* Looks the name up by its FNV hash, and stores it. */
static void look_up(const char *name, size_t length) {
    unsigned hash = 2166136261u;
    for (size_t i = 0; i < length; i++) hash = (hash ^ (unsigned char)name[i]) * 16777619u;
    known += table[hash & 4095] == hash;
    table[hash & 4095] = hash;
}

static void replace_escapes(const char *from, const char *end) {
    char *to = text;
    while (from < end) {
        const char *escape = memchr(from, '\\', end - from);
        size_t plain = (escape ? escape : end) - from;
        memcpy(to, from, plain);
        to += plain;
        if (!escape) break;
        *to++ = escape[1] == 'n' ? '\n' : escape[1] == 't' ? '\t' : '\\';
        from = escape + 2;
    }
    bytes += to - text;
}

static void take_line(const char *line, const char *end) {
    if (line == end) return;
    char kind = *line++;
    size_t length = end - line;
    counts[(unsigned char)kind]++;
    if (kind == '(') {
        look_up(line, length);
        if (depth == OPEN || !(open_names[depth] = realloc(open_names[depth], length + 1))) exit(1);
        memcpy(open_names[depth], line, length);
        lengths[depth++] = length;
    } else if (kind == ')') {
        if (!depth || lengths[depth - 1] != length || memcmp(open_names[depth - 1], line, length)) exit(1);
        depth--;
    } else if (kind == 'A') {
        const char *space = memchr(line, ' ', length);
        if (!space) exit(1);
        look_up(line, space - line);
        replace_escapes(space + 1, end);
    } else if (kind == '-') {
        replace_escapes(line, end);
    }
}

int main(void) {
    size_t have = 0;
    for (;;) {
        ssize_t came = read(0, piece + have, PIECE);
        if (came <= 0) break;
        char *line = piece, *end = piece + have + came, *feed;
        while ((feed = memchr(line, '\n', end - line))) {
            take_line(line, feed);
            line = feed + 1;
        }
        have = end - line;
        if (have > PIECE) return 1;
        memmove(piece, line, have);
    }
    printf("%zu starts %zu attributes %zu texts %zu ends %zu bytes %zu known\n", counts['('], counts['A'], counts['-'], counts[')'], bytes, known);
    return 0;
}
