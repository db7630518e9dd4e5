/* Decodes a document: finds how its characters are written (XML 1.0, 4.3.3 and appendix F), and gives them as UTF-8 with a line feed for each line end (2.11).
 * Each character that it gives is one that XML allows. */
#ifndef DECODING_H
#define DECODING_H

#include "declaration_blanks.h"
#include "encodings.h"
#include "fault.h"
#include "xml_declaration.h"

/* How the first bytes show that the characters are written. */
enum family {
    FAMILY_BYTES, /* ASCII is itself */
    FAMILY_UTF_8, /* the same, with a byte order mark */
    FAMILY_UTF_16_LITTLE,
    FAMILY_UTF_16_BIG,
    FAMILY_UTF_32, /* this one and the next are not read */
    FAMILY_EBCDIC
};

enum { MOST_ENCODING = 64 /* bytes of the name of an encoding, with a zero */ };

struct decoding {
    bool is_external; /* it is an external entity. Its text declaration is no part of its text */
    size_t dropped;   /* how many bytes of UTF-8 are still to be dropped for that */
    struct bytes first; /* the first bytes, until they show the encoding */
    bool is_declared;   /* they begin a declaration, whose end is waited for */
    bool is_known;
    enum family family;
    struct transcoder transcoder;
    bool is_transcoded;
    bool is_by_iconv;     /* .. by iconv, from the encoding of this name: */
    char encoding[MOST_ENCODING];
    struct bytes decoded; /* what the transcoder gives */
    char begun[4];        /* the first bytes of a character of UTF-8 whose other bytes have not come */
    size_t begun_length;
    bool has_longer;      /* a character of more than one byte was given */
    bool after_return;    /* the last character was a carriage return: a line feed behind it belongs to it */
    struct declaration_blanks blanks; /* what was left out of the declaration */
    struct fault fault;   /* why nothing comes after the text that was given. Its place is the end of that text */
};

#define NO_DECODING {.first = NO_BYTES, .transcoder = NO_TRANSCODER, .decoded = NO_BYTES, .fault = NO_FAULT}

extern const char read_by_iconv[]; /* the words of a note about that, with `%s` in the place of the name */

/* Adds the characters of the bytes to the text. Once there is a fault, no more are added. */
void decoding_take(struct decoding *decoding, const char *bytes, size_t length, struct bytes *text);

/* Adds the characters that are held back at the end of the input. */
void decoding_end(struct decoding *decoding, struct bytes *text);
void decoding_free(struct decoding *decoding);

#endif
