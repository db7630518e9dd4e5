/* Cuts long comments, instructions and CDATA sections into several, so that libxml2, which keeps each as a whole, keeps little of them.
 *
 * What libxml2 gets for a cut is not in the document. So it has the offset of the document again only behind it (section_begins_again). */
#ifndef SECTIONS_H
#define SECTIONS_H

#include "bytes.h"

#include <stdint.h>

enum { CUT_BYTES = 16 /* more than libxml2 gets for a cut */ };

struct section_kind;

/* The section that libxml2 reads. Set it to zero before the first byte of a document. */
struct section {
    const struct section_kind *kind; /* NULL: it reads none */
    uint64_t begin;    /* the offset at which it begins, or was cut last */
    uint64_t content;  /* the offset of what is in it, or behind the cut */
    uint64_t data;     /* the same without the target of an instruction and the blanks behind it; UINT64_MAX: these go on */
    bool has_target;   /* the target was read */
    uint64_t searched; /* the offset up to which its end was searched */
    bool has_end;      /* libxml2 has got its end */
    bool is_cut;       /* libxml2 has got the cut, and has not read it */
    bool is_continued; /* it has read a cut, and the section goes on */
};

/* Looks whether the markup that libxml2 reads is a section, and for its end. The text begins with the offset `begin`, and libxml2 has got it. */
void section_look(struct section *section, uint64_t markup, struct span text, uint64_t begin);

/* Whether it is known that libxml2 reads a section at the markup. Then `content` is in it, and this is the byte by which markup_scan.h knows its kind. */
bool section_is_read(const struct section *section, uint64_t markup, char *kind);

/* Passes over bytes of the target of an instruction, up to the offset. */
void section_pass(struct section *section, uint64_t offset);

/* How many of the bytes that libxml2 gets next come before a cut; SIZE_MAX: there is none. It has got so many of the text, up to the offset, and gets `count`
 * more. */
size_t section_cut_in(const struct section *section, uint64_t offset, struct span text, size_t given, size_t count);

/* Puts the cut behind so many bytes of a text, which has room for it. Returns how long it is. `offset` is that of the text. */
size_t section_cut(struct section *section, char *text, size_t length, size_t at, uint64_t offset);

/* Whether libxml2, which is at the offset, has read a part before a cut, and not a section. It takes the end of the part off what is added to the offset. */
bool section_is_part(const struct section *section, uint64_t offset, uint64_t *skew);

/* The section ends, or begins again behind the cut. */
void section_begins_again(struct section *section, bool is_part, uint64_t *skew);

#endif
