/* Decodes the encodings other than UTF-8: UTF-16, US-ASCII and ISO-8859-1 by itself, and others by iconv, as it has them. */
#ifndef ENCODINGS_H
#define ENCODINGS_H

#include "bytes.h"

#include <iconv.h>

enum encoding { ENCODING_ASCII, ENCODING_LATIN_1, ENCODING_UTF_16_LITTLE, ENCODING_UTF_16_BIG, ENCODING_OF_ICONV };

struct transcoder {
    enum encoding encoding;
    iconv_t descriptor;   /* of ENCODING_OF_ICONV */
    struct bytes waiting; /* the first bytes of a character whose other bytes have not come yet */
};

#define NO_TRANSCODER {.descriptor = (iconv_t)-1, .waiting = NO_BYTES}

/* Opens the transcoder for a name of an encoding. False: iconv does not know it. Close it in any case. */
bool transcoder_open(struct transcoder *transcoder, const char *name);

/* Finds out whether a text in ASCII is the same in the encoding, before the first byte. False: out of memory. */
bool transcoder_keeps(struct transcoder *transcoder, struct span ascii, bool *is_same);

/* Adds the bytes as UTF-8 to `text`. Bytes that the encoding does not have become a byte 0xFF, which no UTF-8 has. False: out of memory. */
bool transcoder_add(struct transcoder *transcoder, const char *bytes, size_t length, struct bytes *text);

/* Adds what the encoding still holds back at the end of the input. False: out of memory. */
bool transcoder_end(struct transcoder *transcoder, struct bytes *text);
void transcoder_close(struct transcoder *transcoder);

#endif
