#include "encodings.h"

#include <errno.h>
#include <strings.h>

enum {
    ROOM = 16384,
    LONGEST_CHARACTER = 64, /* bytes */
    FIRST_BEHIND_ASCII = 0x80,
    FIRST_HIGH = 0xD800, /* surrogates, of which two are a character above U+FFFF: high ones, .. */
    FIRST_LOW = 0xDC00,  /* .. low ones, .. */
    FIRST_BEHIND = 0xE000,
    FIRST_OF_PAIRS = 0x10000
};

static const char NO_CHARACTER = '\xFF'; /* no UTF-8 has it */

bool transcoder_open(struct transcoder *transcoder, const char *name) {
    static const struct {
        const char *name;
        enum encoding encoding;
    } known[] = {{"us-ascii", ENCODING_ASCII}, {"ascii", ENCODING_ASCII}, {"iso-8859-1", ENCODING_LATIN_1}, {"latin1", ENCODING_LATIN_1}};
    *transcoder = (struct transcoder)NO_TRANSCODER;
    for (size_t at = 0; at < sizeof known / sizeof *known; at++) {
        if (strcasecmp(name, known[at].name) == 0) {
            transcoder->encoding = known[at].encoding;
            return true;
        }
    }
    /* these two are not names of encodings: they depend on the machine */
    if (strcasecmp(name, "char") == 0 || strcasecmp(name, "wchar_t") == 0) {
        return false;
    }
    transcoder->encoding = ENCODING_OF_ICONV;
    transcoder->descriptor = iconv_open("UTF-8", name);
    return transcoder->descriptor != (iconv_t)-1;
}

/* Takes bytes of which each is a character. */
static size_t take_bytes(const struct transcoder *transcoder, const char *bytes, size_t length, struct bytes *text) {
    for (size_t at = 0; at < length; at++) {
        unsigned byte = (unsigned char)bytes[at];
        if (byte < FIRST_BEHIND_ASCII || transcoder->encoding == ENCODING_ASCII) {
            bytes_add_byte(text, byte < FIRST_BEHIND_ASCII ? bytes[at] : NO_CHARACTER);
        } else {
            bytes_add_character(text, byte);
        }
    }
    return length;
}

/* The number of UTF-16 at the start of the bytes. */
static unsigned unit_of(const struct transcoder *transcoder, const char *bytes) {
    bool is_big = transcoder->encoding == ENCODING_UTF_16_BIG;
    return (unsigned)(unsigned char)bytes[is_big ? 0 : 1] << 8 | (unsigned char)bytes[is_big ? 1 : 0];
}

/* Takes characters of UTF-16. Returns how many bytes that is: the start of one may be left. */
static size_t take_utf_16(const struct transcoder *transcoder, const char *bytes, size_t length, struct bytes *text) {
    size_t at = 0;
    while (length - at >= 2) {
        unsigned code = unit_of(transcoder, bytes + at);
        bool is_high = code >= FIRST_HIGH && code < FIRST_LOW;
        if (is_high && length - at < 4) {
            break;
        }
        unsigned low = is_high ? unit_of(transcoder, bytes + at + 2) : 0;
        bool is_pair = low >= FIRST_LOW && low < FIRST_BEHIND;
        at += is_pair ? 4 : 2;
        if (is_pair) {
            bytes_add_character(text, FIRST_OF_PAIRS + ((code - FIRST_HIGH) << 10) + (low - FIRST_LOW));
        } else if (code >= FIRST_HIGH && code < FIRST_BEHIND) {
            bytes_add_byte(text, NO_CHARACTER);
        } else {
            bytes_add_character(text, code);
        }
    }
    return at;
}

/* Calls iconv once. It takes some of the bytes, from `from` on. */
static size_t by_iconv(const struct transcoder *transcoder, char **from, size_t *left, struct bytes *text) {
    if (!bytes_reserve(text, ROOM)) {
        errno = ENOMEM;
        return (size_t)-1;
    }
    char *to = text->data + text->length;
    size_t room = ROOM;
    size_t answer = iconv(transcoder->descriptor, from, left, &to, &room);
    text->length += ROOM - room;
    return answer;
}

/* Takes bytes by iconv, but for the first ones of a character whose other bytes are not there. Returns how many. */
static size_t take_by_iconv(const struct transcoder *transcoder, char *bytes, size_t length, struct bytes *text) {
    char *from = bytes;
    size_t left = length;
    while (left > 0 && !text->failed) {
        bool is_whole = by_iconv(transcoder, &from, &left, text) != (size_t)-1 || errno == E2BIG;
        if (!is_whole && errno == EINVAL && left < LONGEST_CHARACTER) {
            break;
        }
        if (!is_whole && errno != ENOMEM) {
            bytes_add_byte(text, NO_CHARACTER);
            from++;
            left--;
        }
    }
    return length - left;
}

bool transcoder_add(struct transcoder *transcoder, const char *bytes, size_t length, struct bytes *text) {
    struct bytes *waiting = &transcoder->waiting;
    bytes_add(waiting, bytes, length);
    if (waiting->failed) {
        return false;
    }
    bool is_utf_16 = transcoder->encoding == ENCODING_UTF_16_LITTLE || transcoder->encoding == ENCODING_UTF_16_BIG;
    size_t taken = transcoder->encoding == ENCODING_OF_ICONV ? take_by_iconv(transcoder, waiting->data, waiting->length, text)
                   : is_utf_16                               ? take_utf_16(transcoder, waiting->data, waiting->length, text)
                                                             : take_bytes(transcoder, waiting->data, waiting->length, text);
    bytes_cut_front(waiting, taken);
    return !text->failed;
}

bool transcoder_end(struct transcoder *transcoder, struct bytes *text) {
    bool is_whole = transcoder->encoding != ENCODING_OF_ICONV || by_iconv(transcoder, NULL, NULL, text) == 0;
    if (!text->failed && (transcoder->waiting.length > 0 || !is_whole)) {
        bytes_add_byte(text, NO_CHARACTER);
    }
    return !text->failed;
}

bool transcoder_keeps(struct transcoder *transcoder, struct span ascii, bool *is_same) {
    struct bytes text = NO_BYTES;
    bool is_done = transcoder_add(transcoder, ascii.data, ascii.length, &text) && transcoder_end(transcoder, &text);
    *is_same = is_done && text.length == ascii.length && memcmp(text.data, ascii.data, ascii.length) == 0;
    bytes_clear(&transcoder->waiting);
    if (transcoder->encoding == ENCODING_OF_ICONV) {
        iconv(transcoder->descriptor, NULL, NULL, NULL, NULL);
    }
    bytes_free(&text);
    return is_done;
}

void transcoder_close(struct transcoder *transcoder) {
    if (transcoder->descriptor != (iconv_t)-1) {
        iconv_close(transcoder->descriptor);
        transcoder->descriptor = (iconv_t)-1;
    }
    bytes_free(&transcoder->waiting);
}
