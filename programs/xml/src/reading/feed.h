/* Gives a document's text to libxml2 as it reads, and knows the place of each offset in the text.
 *
 * The text is what `decoding.h` makes of the document, so libxml2 sees UTF-8 with a line feed for each line end, whatever the document's encoding.
 * `models.h` says what it sees of content models, `choices.h` of the choices of attributes, `sections.h` of long comments and the like, `shortening.h` of long names and values, `long_references.h` of long references, `inclusions.h` of
 * long entities, `wide_tags.h` of many attributes. */
#ifndef FEED_H
#define FEED_H

#include "decoding.h"
#include "events.h"
#include "inclusions.h"
#include "long_references.h"
#include "models.h"
#include "sections.h"
#include "shortening.h"
#include "wide_tags.h"

#include <libxml/parser.h>

enum { MARK_BYTES = 10 /* the longest beginning that tells markup: `<!DOCTYPE` and a blank */ };

/* The start tag that is being read: how many attributes it has. It is scanned while its text comes, before libxml2 compares them in pairs. */
struct tag_scan {
    uint64_t tag; /* its offset */
    uint64_t next; /* the offset from which on it is not scanned */
    char quote;   /* the quote of the value that is being read; 0: none */
    unsigned count;
    bool has_ended;
};

struct feed {
    const struct byte_source *source;
    struct fault *fault;
    xmlParserCtxtPtr parser; /* of the document itself; an entity's text may have a parser of its own */
    struct decoding decoding;
    struct bytes text;  /* what is kept of the text */
    uint64_t begin;     /* the offset of its first byte */
    size_t given;       /* how many of its bytes libxml2 has */
    uint64_t skew;      /* what the offsets in the document have above those in what libxml2 has got; less than zero as a number of 64 bits */
    bool has_ended;     /* there is no more of the document */
    uint64_t place_at;  /* an offset, and its place */
    struct place place;
    uint64_t plain_to;  /* characters of ASCII, without line feeds, are between that offset and this one */
    bool is_away;       /* libxml2 reads the external DTD, and the parser's first input is that (`away_at`: where it is in the document) */
    uint64_t away_at;
    uint64_t markup;    /* the offset after the blanks at `next`, as far as they are known */
    uint64_t settled;   /* the last offset up to which references that gave nothing were passed */
    uint64_t next;      /* the offset of the markup or the text that is being read */
    struct tag_scan scan;
    struct reference_scan references;
    struct model_scan models;
    uint64_t parted_at; /* the offset at which a long model was parted last; 0: none was */
    size_t parting;     /* how many bytes it got there in addition, if it has not read the part before; else 0 */
    struct section section;
    struct shortening shortening;
    struct wide_tag wide;
    struct inclusions inclusions;
    unsigned long taken_back; /* the bytes that libxml2 had forgotten when it had just read a reference whose text is included; ULONG_MAX: unknown */
    const size_t *depth; /* how many elements are open */
    struct bytes room;  /* where the document's bytes are read */
    uint64_t long_at;   /* the offset of markup that is so long that its beginning is not kept, .. */
    struct place long_place;
    char long_mark[MARK_BYTES]; /* .. but its place and its first bytes */
    size_t most;        /* the bytes that may be held of the document */
    size_t most_depth;  /* how many elements may be open, and entities in one another */
    size_t most_attributes; /* that a tag may have, with declarations; the same for the choices of a list in an entity: libxml2 compares them in pairs */
    size_t defaults;    /* the bytes that are kept of namespaces by default */
    size_t kept;        /* the bytes that the receiver keeps, when it was asked last */
    void (*before_read)(void *context); /* is called before more of the document is read, which may take long */
    bool has_told_iconv;                /* that it has read something */
    void (*by_iconv)(void *context, const char *encoding); /* is called if it reads the document */
    void (*included)(void *context);    /* is called before libxml2 gets the text of an entity as if the document had it */
    void (*shortened)(void *context);   /* is called after libxml2 got less of a tag or a declaration than the document has */
    void *context;
};

void feed_open(struct feed *feed, const struct byte_source *source, struct fault *fault);
void feed_close(struct feed *feed);

/* Whether all of the text is there. */
static inline bool feed_has_all(const struct feed *feed) {
    return feed->has_ended && feed->inclusions.text_count == 0;
}

/* Reads for libxml2, as its input callback. */
int feed_read(void *feed, char *bytes, int length);

/* The offset of a pointer into the text that an input of libxml2 has of the document. */
static inline uint64_t feed_offset_in(const struct feed *feed, const xmlParserInput *input, const xmlChar *pointer) {
    return feed->skew + (uint64_t)input->consumed + (uint64_t)(pointer - input->base);
}

/* The offset at which libxml2 is in the document. */
static inline uint64_t feed_offset(const struct feed *feed) {
    if (feed->is_away) {
        return feed->away_at;
    }
    if (feed->parser->inputNr < 1) {
        return feed->begin + feed->given;
    }
    const xmlParserInput *input = feed->parser->inputTab[0];
    return feed_offset_in(feed, input, input->cur);
}

/* The offset at which libxml2 is in a tag or before it: what is left out of a wide tag may be behind that. */
static inline uint64_t feed_offset_in_tag(const struct feed *feed) {
    uint64_t offset = feed_offset(feed);
    return offset < feed->wide.behind ? offset - feed->wide.left : offset;
}

/* Whether libxml2 reads the document itself, and not the text of an entity. */
static inline bool feed_is_read(const struct feed *feed) {
    return feed->parser->depth == 0 && feed->parser->inputNr == 1 && !feed->is_away;
}

/* The byte at the offset, which may be in the beginning of markup that is not kept; 0: it is not kept. */
char feed_kept_byte(const struct feed *feed, uint64_t offset);

/* The byte at the offset; 0: it is not kept. */
static inline char feed_byte(const struct feed *feed, uint64_t offset) {
    bool is_there = offset >= feed->begin && offset - feed->begin < feed->text.length;
    return is_there ? feed->text.data[offset - feed->begin] : feed_kept_byte(feed, offset);
}

/* The last offset before `end`, and not before what is kept, at which the text is; `end` if there is none. */
uint64_t feed_last(const struct feed *feed, uint64_t end, const char *text);

/* The first offset from `begin` on at which the text is; `begin` if there is none. */
uint64_t feed_first(const struct feed *feed, uint64_t begin, const char *text);

/* The place of an offset. Offsets before the last one that was asked for have its place. */
struct place feed_place(struct feed *feed, uint64_t offset);

/* The offset of the first of so many bytes that is no blank; `offset` if all are. */
uint64_t feed_behind_blanks(const struct feed *feed, uint64_t offset, size_t length);

/* The same as feed_place, for an event. The other one is for an offset behind the characters that were looked at. */
struct place feed_far_place(struct feed *feed, uint64_t offset);
static inline struct place feed_event_place(struct feed *feed, uint64_t offset) {
    if (offset < feed->place_at || offset > feed->plain_to) {
        return feed_far_place(feed, offset);
    }
    feed->place.column += offset - feed->place_at;
    feed->place_at = offset;
    return feed->place;
}

/* Moves on: what is before the offset was read. */
static inline void feed_move(struct feed *feed, uint64_t next) {
    feed->next = next > feed->next ? next : feed->next;
}

/* Does the same to where libxml2 is, which is never before. */
static inline void feed_move_on(struct feed *feed, uint64_t next) {
    feed->next = next;
}

/* Lets libxml2 forget what it has read of the document, if it holds much: it does not between declarations of elements and attributes, and seldom between
 * references. The handler of one of these may call this. */
void feed_shrink(struct feed *feed);

/* Moves on to the rest of a model that was parted, if the declaration that libxml2 has read is the part before. */
void feed_move_to_rest(struct feed *feed);

/* The offset of the markup that is being read, after blanks. */
uint64_t feed_markup(struct feed *feed);

/* Moves on to the text or markup that ends at or before `end`, over references that gave nothing. Returns its offset. */
uint64_t feed_settle(struct feed *feed, uint64_t end);

/* Whether more is held of the document than is allowed. Then the other one refuses it, and tells the place. */
bool feed_is_over(const struct feed *feed);
void feed_check_memory(struct feed *feed, struct place place);

/* Refuses the document, which is over a limit of the program that the option raises. The words have `%s` in the place of the limit, if they name it. */
void feed_refuse(struct feed *feed, struct place place, const char *what, uint64_t most, const char *option);

/* The option that raises the limits which grow with the attributes of a tag, once these may be more than usual. */
const char *feed_raising(const struct feed *feed);

/* Whether a tag in the text has more attributes than so many. */
bool has_too_many_attributes(struct span text, size_t most);

/* Whether a declaration in the text has more choices than so many. */
bool has_too_many_choices(struct span text, size_t most);

/* The words for feed_refuse. */
extern const char too_many_attributes[];
extern const char too_many_choices[];

#endif
