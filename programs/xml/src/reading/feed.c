#include "feed.h"

#include "including.h"
#include "parser_memory.h"

#include <ctype.h>
#include <libxml/parserInternals.h>
#include <limits.h>
#include <string.h>

enum {
    PIECE_BYTES = 65536,    /* of the document, read at once */
    LONG_BYTES = 1048576,     /* the beginning of longer markup is not kept */
    MOST_CONSUMED = 1 << 30, /* the greatest offset that libxml2 has */
    SHORT_BYTES = 4096,     /* of a reference that is passed over */
    REFERENCE_BYTES = 1048576, /* of one that is left out */
    COUNTED_BYTES = 128,    /* whose line feeds are counted together: fewer than 256 */
    FORGOTTEN_BYTES = 65536, /* the text that was read is forgotten in pieces of this length */
    LONG_RUN = 32,          /* bytes of blanks, or of a name. Several of them are as long as what libxml2 has at the beginning of a declaration: 250 */
    NEAR_BYTES = 128,       /* within which such a run is searched */
    SEARCHED_BYTES = 1024,  /* for the beginning of an instruction */
    LOOKED_AHEAD = 256      /* bytes, for the place of the next event */
};

#ifndef MOST_HELD
#define MOST_HELD 1000000000 /* bytes of a tag or a declaration that libxml2 may hold: it takes no more */
#endif

static const char of_element[] = "<!ELEMENT";

const char too_many_choices[] = "a declaration of attributes has more than %s choices";
const char too_many_attributes[] = "a tag has more than %s attributes and declarations";

void feed_open(struct feed *feed, const struct byte_source *source, struct fault *fault) {
    static const struct decoding new_decoding = NO_DECODING;
    memset(feed, 0, sizeof *feed);
    feed->source = source;
    feed->fault = fault;
    feed->decoding = new_decoding;
    feed->place = (struct place){1, 1};
    feed->long_at = UINT64_MAX;
    feed->taken_back = ULONG_MAX;
}

void feed_close(struct feed *feed) {
    decoding_free(&feed->decoding);
    bytes_free(&feed->models.separators);
    shortening_free(&feed->shortening);
    inclusions_free(&feed->inclusions);
    wide_tag_free(&feed->wide);
    bytes_free(&feed->text);
    bytes_free(&feed->room);
}

static bool is_blank(char byte) {
    return byte == ' ' || byte == '\t' || byte == '\n';
}

static uint64_t end_of(const struct feed *feed) {
    return feed->begin + feed->text.length;
}

/* Whether the offset is in the beginning of markup that is not kept. */
static bool is_in_mark(const struct feed *feed, uint64_t offset) {
    return offset < feed->begin && offset >= feed->long_at && offset - feed->long_at < MARK_BYTES;
}

char feed_kept_byte(const struct feed *feed, uint64_t offset) {
    return is_in_mark(feed, offset) ? feed->long_mark[offset - feed->long_at] : '\0';
}

static bool is_at(const struct feed *feed, uint64_t offset, const char *text) {
    size_t length = strlen(text);
    if (is_in_mark(feed, offset)) {
        return offset == feed->long_at && length <= MARK_BYTES && memcmp(feed->long_mark, text, length) == 0;
    }
    return offset >= feed->begin && offset + length <= end_of(feed) && memcmp(feed->text.data + (offset - feed->begin), text, length) == 0;
}

uint64_t feed_last(const struct feed *feed, uint64_t end, const char *text) {
    uint64_t last = end < end_of(feed) ? end : end_of(feed);
    const char *at = feed->text.data + (last - feed->begin);
    while (at > feed->text.data) {
        at--;
        if (*at == text[0] && is_at(feed, feed->begin + (uint64_t)(at - feed->text.data), text)) {
            return feed->begin + (uint64_t)(at - feed->text.data);
        }
    }
    bool is_long = is_in_mark(feed, feed->long_at) && feed->long_at < end && is_at(feed, feed->long_at, text);
    return is_long ? feed->long_at : end;
}

uint64_t feed_first(const struct feed *feed, uint64_t begin, const char *text) {
    for (uint64_t at = begin; at < end_of(feed); at++) {
        if (is_at(feed, at, text)) {
            return at;
        }
    }
    return begin;
}

/* How many of eight bytes begin a character. */
static unsigned beginnings_of(uint64_t word) {
    uint64_t continued = word >> 7 & ~(word >> 6) & UINT64_C(0x0101010101010101);
    return 8 - (unsigned)((continued * UINT64_C(0x0101010101010101)) >> 56);
}

/* How many of so many bytes are line feeds. It looks at all of them in the same way, so compilers look at many together. */
static unsigned line_feeds_of(const char *bytes) {
    unsigned char count = 0;
    for (size_t at = 0; at < COUNTED_BYTES; at++) {
        count = (unsigned char)(count + (bytes[at] == '\n'));
    }
    return count;
}

static size_t line_feeds(const char *at, const char *end) {
    size_t count = 0;
    for (; end - at >= COUNTED_BYTES; at += COUNTED_BYTES) {
        count += line_feeds_of(at);
    }
    for (; at < end; at++) {
        count += *at == '\n';
    }
    return count;
}

/* How many characters begin in a part of the text. */
static size_t characters(const char *at, const char *end) {
    size_t count = 0;
    for (; end - at >= 8; at += 8) {
        uint64_t word;
        memcpy(&word, at, sizeof word);
        count += beginnings_of(word);
    }
    for (; at < end; at++) {
        count += ((unsigned char)*at & 0xC0) != 0x80;
    }
    return count;
}

/* Counts the lines and columns of a part of the text. */
static struct place counted(struct place place, const char *at, const char *end) {
    const char *line = end; /* where the last line begins */
    while (line - at >= COUNTED_BYTES && line_feeds_of(line - COUNTED_BYTES) == 0) {
        line -= COUNTED_BYTES;
    }
    while (line > at && line[-1] != '\n') {
        line--;
    }
    if (line > at) {
        place = (struct place){place.line + line_feeds(at, line), 1};
    }
    place.column += characters(line, end);
    return place;
}

/* Counts the lines and columns from one offset to another. */
static struct place counted_between(const struct feed *feed, struct place place, uint64_t from, uint64_t to) {
    return counted(place, feed->text.data + (from - feed->begin), feed->text.data + (to - feed->begin));
}

/* Counts those that the document itself has. */
static struct place counted_own(const struct feed *feed, struct place place, uint64_t from, uint64_t to) {
    const struct inclusions *inclusions = &feed->inclusions;
    for (size_t at = 0; at < inclusions->part_count && from < to; at++) {
        struct included_part part = inclusions->parts[at];
        if (part.end > from && part.begin < to) {
            place = part.begin > from ? counted_between(feed, place, from, part.begin) : place;
            from = part.end < to ? part.end : to;
        }
    }
    return from < to ? counted_between(feed, place, from, to) : place;
}

/* The place of what is included at the offset; NULL: the document itself has that. */
static const struct place *included_place(const struct feed *feed, uint64_t offset) {
    const struct included_part *part = feed->inclusions.part_count == 0 ? NULL : included_part_at(&feed->inclusions, offset);
    return part == NULL ? NULL : &part->place;
}

struct place feed_place(struct feed *feed, uint64_t offset) {
    uint64_t end = offset < end_of(feed) ? offset : end_of(feed);
    const struct place *included = included_place(feed, offset);
    if (included == NULL && is_in_mark(feed, offset)) {
        return (struct place){feed->long_place.line, feed->long_place.column + (offset - feed->long_at)};
    }
    if (end > feed->place_at) {
        feed->place = counted_own(feed, feed->place, feed->place_at, end);
        feed->place_at = end;
    }
    return included == NULL ? feed->place : *included;
}

/* Goes on over characters of ASCII without line feeds. */
static void pass_plain(struct feed *feed, uint64_t offset) {
    feed->place.column += offset - feed->place_at;
    feed->place_at = offset;
}

/* Goes on over line feeds and other characters. */
static void pass_others(struct feed *feed, uint64_t offset) {
    const char *at = feed->text.data + (feed->place_at - feed->begin);
    for (; feed->place_at < offset && (*at == '\n' || (*at & 0x80) != 0); at++, feed->place_at++) {
        bool is_line_feed = *at == '\n';
        feed->place.line += is_line_feed;
        feed->place.column = is_line_feed ? 1 : feed->place.column + (((unsigned char)*at & 0xC0) != 0x80);
    }
}

/* How many bytes begin a text before a line feed, or another character that is none of ASCII. A few of them are looked at. */
static size_t plain_run(struct span text, bool is_ascii) {
    size_t most = text.length < LOOKED_AHEAD ? text.length : LOOKED_AHEAD;
    const char *line_feed = memchr(text.data, '\n', most);
    size_t length = line_feed == NULL ? most : (size_t)(line_feed - text.data);
    size_t at = is_ascii ? length : 0;
    while (at < length && (text.data[at] & 0x80) == 0) {
        at++;
    }
    return at;
}

struct place feed_far_place(struct feed *feed, uint64_t offset) {
    bool is_known = offset >= feed->place_at && feed->place_at >= feed->begin && offset <= end_of(feed) && feed->inclusions.part_count == 0;
    if (!is_known) {
        feed->plain_to = 0; /* what is included has its own place at each offset */
        return feed_place(feed, offset);
    }
    feed->plain_to = feed->plain_to > feed->place_at ? feed->plain_to : feed->place_at;
    while (feed->plain_to < offset) {
        pass_plain(feed, feed->plain_to);
        pass_others(feed, offset);
        struct span text = {feed->text.data, feed->text.length};
        feed->plain_to = feed->place_at + plain_run(span_from(text, (size_t)(feed->place_at - feed->begin)), !feed->decoding.has_longer);
    }
    pass_plain(feed, offset);
    return feed->place;
}

uint64_t feed_behind_blanks(const struct feed *feed, uint64_t offset, size_t length) {
    size_t blanks = 0;
    while (blanks < length && is_blank(feed_byte(feed, offset + blanks))) {
        blanks++;
    }
    return blanks < length ? offset + blanks : offset;
}

uint64_t feed_settle(struct feed *feed, uint64_t end) {
    if (end == feed->settled) {
        return feed->next;
    }
    feed->settled = end;
    while (feed_byte(feed, feed->next) == '&') {
        uint64_t at = feed->next;
        while (at < end && feed_byte(feed, at) != ';') {
            at++;
        }
        if (at + 1 >= end) {
            break;
        }
        feed->next = at + 1;
    }
    return feed->next;
}

/* Forgets the first bytes of the text, if they are enough. */
static void cut(struct feed *feed, uint64_t end) {
    size_t length = end > feed->begin ? (size_t)(end - feed->begin) : 0;
    length = length > feed->given ? feed->given : length;
    if (length >= FORGOTTEN_BYTES) {
        bytes_cut_front(&feed->text, length);
        feed->begin += length;
        feed->given -= length;
    }
}

/* Forgets long markup that is being read, but its beginning and its last bytes. */
static void forget_long(struct feed *feed) {
    uint64_t given = feed->begin + feed->given;
    uint64_t markup = feed_markup(feed);
    if (feed->section.is_continued || given < markup + LONG_BYTES || feed_byte(feed, markup) != '<') {
        return;
    }
    if (feed->long_at != markup) {
        feed->long_place = feed_place(feed, markup);
        feed->long_at = markup;
        memcpy(feed->long_mark, feed->text.data + (markup - feed->begin), MARK_BYTES);
    }
    if (given - feed->begin >= LONG_BYTES) {
        feed_place(feed, given - FORGOTTEN_BYTES);
        cut(feed, given - FORGOTTEN_BYTES);
    }
}

/* Forgets the text that was read. What may be asked for again is kept. */
static void forget(struct feed *feed) {
    feed_place(feed, feed->next < feed->begin + feed->given ? feed->next : feed->begin + feed->given);
    cut(feed, feed->place_at < feed->next ? feed->place_at : feed->next);
    forget_long(feed);
    inclusions_forget(&feed->inclusions, feed->place_at);
}

bool feed_is_over(const struct feed *feed) {
    size_t own = feed->text.capacity + feed->room.capacity + feed->models.separators.capacity + shortening_held(&feed->shortening) + feed->inclusions.held +
                 wide_tag_held(&feed->wide);
    return parser_memory_held() + own + feed->decoding.first.capacity + feed->defaults + feed->kept > feed->most;
}

const char *feed_raising(const struct feed *feed) {
    return feed->most_attributes > USUAL_ATTRIBUTES ? "--max-attributes" : "--max-attributes above 10,000";
}

void feed_refuse(struct feed *feed, struct place place, const char *what, uint64_t most, const char *option) {
    struct bytes count = NO_BYTES;
    struct bytes words = NO_BYTES;
    bytes_add_count(&count, most);
    bytes_format(&words, what, bytes_text(&count));
    const char *text = bytes_text(&words);
    if (count.failed || words.failed) {
        fault_set(feed->fault, FAULT_MEMORY, (struct place){0, 0}, "out of memory");
    }
    fault_set(feed->fault, FAULT_OUTSIDE, place, "over a limit of this program: %s (%s)", text, option);
    bytes_free(&count);
    bytes_free(&words);
}

void feed_check_memory(struct feed *feed, struct place place) {
    if (feed_is_over(feed)) {
        feed_refuse(feed, place, "more than %s bytes are held of the document", feed->most, "--max-memory");
    }
}

/* Goes on behind an XML declaration of which blanks were left out. */
static void pass_declaration(struct feed *feed) {
    const struct declaration_blanks *blanks = &feed->decoding.blanks;
    size_t length = 0;
    if (blanks->count > 0 && feed->text.length > 0 && feed->place_at == 0) {
        feed->place = place_behind_declaration(blanks, (struct span){feed->text.data, feed->text.length}, &length);
        feed->place_at = length;
    }
}

/* Goes on to the last place of the content at which it is known what is being read. */
static void find_content(struct feed *feed) {
    struct reference_scan *scan = &feed->references;
    uint64_t markup = feed_markup(feed);
    char kind = '\0';
    uint64_t known = section_is_read(&feed->section, markup, &kind) ? feed->section.content : markup;
    known = known > feed->begin ? known : feed->begin;
    if (known > scan->looked && !scan->is_long) {
        scan->markup = (struct markup_scan){.kind = kind, .is_content = true};
        scan->looked = known;
    }
}

/* Writes long references in what was read of the document. */
static void write_references(struct feed *feed) {
    struct reference_scan *scan = &feed->references;
    struct bytes *text = &feed->text;
    bool is_end = feed->has_ended || feed->decoding.fault.kind != FAULT_NONE;
    if (!scan->markup.is_content) {
        write_long_references(scan, text->data, text->length, feed->begin, is_end);
    }
    if (scan->markup.is_content && finds_long_reference(scan, (struct span){text->data, text->length}, feed->begin, is_end)) {
        find_content(feed);
        write_long_references(scan, text->data, text->length, feed->begin, is_end);
    }
}

/* Reads the next bytes of the document, or of a text in it. False: there is a fault. */
static bool read_more(struct feed *feed) {
    size_t length = 0;
    if (feed->inclusions.text_count > 0) {
        return feed_read_included(feed);
    }
    if (!bytes_reserve(&feed->room, PIECE_BYTES)) {
        fault_set(feed->fault, FAULT_MEMORY, (struct place){0, 0}, "out of memory");
        return false;
    }
    parser_memory_pause(true); /* the source may use libxml2 itself */
    bool is_read = feed->source->read(feed->source->context, feed->room.data, PIECE_BYTES, &length, feed->fault);
    parser_memory_pause(false);
    if (!is_read) {
        fault_set(feed->fault, FAULT_DEVICE, (struct place){0, 0}, "read failed"); /* unless the source has set a fault */
        return false;
    }
    if (length == 0) {
        decoding_end(&feed->decoding, &feed->text);
        feed->has_ended = true;
    } else {
        decoding_take(&feed->decoding, feed->room.data, length, &feed->text);
    }
    if (feed->decoding.is_by_iconv && !feed->has_told_iconv) {
        feed->has_told_iconv = true;
        feed->by_iconv(feed->context, feed->decoding.encoding);
    }
    if (!feed->decoding.is_known) {
        feed_check_memory(feed, feed->place);
    }
    pass_declaration(feed);
    write_references(feed);
    return true;
}

/* Scans what has come of a tag. */
static void scan(struct tag_scan *scan, struct span text) {
    for (size_t at = 0; at < text.length && !scan->has_ended; at++) {
        char byte = text.data[at];
        if (scan->quote != 0) {
            scan->quote = byte == scan->quote ? '\0' : scan->quote;
        } else if (byte == '"' || byte == '\'') {
            scan->quote = byte;
        } else if (byte == '=') {
            scan->count++;
        }
        scan->has_ended = scan->quote == 0 && (byte == '>' || byte == '<');
    }
}

/* The offset behind a comment, an instruction or a CDATA section that begins at `at`; `at` if none does. */
static size_t skipped(struct span text, size_t at) {
    static const char *const kinds[][2] = {{"<!--", "-->"}, {"<?", "?>"}, {"<![CDATA[", "]]>"}};
    for (size_t kind = 0; kind < sizeof kinds / sizeof *kinds; kind++) {
        size_t length = strlen(kinds[kind][0]);
        if (text.length - at < length || memcmp(text.data + at, kinds[kind][0], length) != 0) {
            continue;
        }
        size_t end = strlen(kinds[kind][1]);
        for (at += length; at + end <= text.length; at++) {
            if (memcmp(text.data + at, kinds[kind][1], end) == 0) {
                return at + end;
            }
        }
        return text.length;
    }
    return at;
}

/* Whether a declaration of an element is at the place. Its choices are not compared. */
static bool is_element(struct span text, size_t at) {
    return text.length - at >= strlen(of_element) && memcmp(text.data + at, of_element, strlen(of_element)) == 0;
}

/* The offset behind a literal that begins at `at`; `at` if none does. */
static size_t behind_literal(struct span text, size_t at) {
    char quote = text.data[at];
    const char *end = quote == '"' || quote == '\'' ? memchr(text.data + at + 1, quote, text.length - at - 1) : NULL;
    return end == NULL ? at : (size_t)(end - text.data) + 1;
}

/* Literals are passed over, but not behind a conditional section, since one that is ignored may have a single quote. */
bool has_too_many_choices(struct span text, size_t most) {
    size_t bars = 0; /* of a list of choices, which has one more of those */
    bool counts = true;
    bool has_literals = true;
    for (size_t at = 0; at < text.length && bars < most;) {
        char byte = text.data[at];
        size_t behind = byte == '<' ? skipped(text, at) : has_literals ? behind_literal(text, at) : at;
        has_literals = has_literals && (byte != '<' || behind > at || !span_begins(span_from(text, at), "<!["));
        counts = byte == '>' || (counts && !is_element(text, at));
        bars = byte == '>' || byte == ')' ? 0 : bars + (counts && byte == '|');
        at = behind > at ? behind : at + 1;
    }
    return bars >= most;
}

bool has_too_many_attributes(struct span text, size_t most) {
    struct tag_scan found = {0, 0, '\0', 0, true};
    for (size_t at = 0; at < text.length; at++) {
        size_t behind = found.has_ended && text.data[at] == '<' ? skipped(text, at) : at;
        if (behind > at) {
            at = behind - 1;
            continue;
        }
        if (found.has_ended && text.data[at] == '<') {
            found = (struct tag_scan){0, 0, '\0', 0, false};
        } else {
            scan(&found, (struct span){text.data + at, 1});
        }
        if (found.count > most) {
            return true;
        }
    }
    return false;
}

/* Whether libxml2 reads the document type. */
static bool is_in_subset(const struct feed *feed) {
    return feed->parser != NULL && feed->parser->inSubset != 0;
}

/* The offset behind the reference at the offset that begins with the byte; the offset itself if there is none, or its end is not known. */
static uint64_t behind_reference(const struct feed *feed, uint64_t offset, char begin) {
    uint64_t at = offset;
    while (at < offset + SHORT_BYTES && feed_byte(feed, offset) == begin && feed_byte(feed, at) != ';') {
        at++;
    }
    return feed_byte(feed, at) == ';' ? at + 1 : begin == '&' ? shortening_behind(&feed->shortening, offset) : offset;
}

/* The offset behind what may be before markup: blanks, and the end of a declaration, which comes after its event. */
static uint64_t behind_blanks(const struct feed *feed, uint64_t offset) {
    char end = is_in_subset(feed) ? '>' : ' ';
    while (is_blank(feed_byte(feed, offset)) || feed_byte(feed, offset) == end) {
        offset++;
    }
    return offset;
}

uint64_t feed_markup(struct feed *feed) {
    char begin = is_in_subset(feed) ? '%' : '&';
    uint64_t markup = behind_blanks(feed, feed->markup > feed->next ? feed->markup : feed->next);
    uint64_t behind = feed->parser == NULL ? markup : behind_reference(feed, markup, begin);
    while (behind > markup && behind <= feed_offset(feed)) {
        markup = behind_blanks(feed, behind); /* what the reference gave was read */
        behind = behind_reference(feed, markup, begin);
    }
    feed->markup = markup;
    return markup;
}

/* Refuses a tag with too many attributes, before all of it has come. */
static void check_tag(struct feed *feed, uint64_t markup) {
    uint64_t given = feed->begin + feed->given;
    char after = feed_byte(feed, markup + 1);
    bool is_tag = feed_byte(feed, markup) == '<' && after != '\0' && strchr("!?/", after) == NULL;
    if (feed->parser->instate == XML_PARSER_DTD || !is_tag || markup >= given || (feed->scan.tag != markup && markup < feed->begin)) {
        return;
    }
    if (feed->scan.tag != markup || feed->scan.next == 0) {
        feed->scan = (struct tag_scan){markup, markup + 1, '\0', 0, false};
    }
    scan(&feed->scan, (struct span){feed->text.data + (feed->scan.next - feed->begin), (size_t)(given - feed->scan.next)});
    feed->scan.next = given;
    if (feed->scan.count > feed->most_attributes) {
        feed_refuse(feed, feed_place(feed, markup), too_many_attributes, feed->most_attributes, "--max-attributes");
    }
}

/* How many bytes libxml2 holds of the document's text. */
static size_t held_by_parser(const struct feed *feed) {
    const xmlParserInput *input = feed->parser == NULL ? NULL : feed->parser->inputTab[0];
    return input == NULL ? 0 : (size_t)(input->end - input->base);
}

/* Refuses markup that is too long, and a document of which too much is held. */
static void check_length(struct feed *feed, uint64_t markup) {
    if (held_by_parser(feed) > MOST_HELD) {
        fault_set(feed->fault, FAULT_OUTSIDE, feed_place(feed, markup), "over a limit of this program: markup of more than 1,000,000,000 bytes");
    }
    if (feed->shortening.failed || feed->shortening.text.failed || feed->wide.text.failed) {
        fault_set(feed->fault, FAULT_MEMORY, (struct place){0, 0}, "out of memory");
    }
    feed_check_memory(feed, feed->place);
}

/* So many bytes of the text at most, and the rest of the character that the last one is in. */
static struct span whole_characters(struct span text, size_t most) {
    size_t length = text.length < most ? text.length : most;
    while (length < text.length && ((unsigned char)text.data[length] & 0xC0) == 0x80) {
        length++;
    }
    return (struct span){text.data, length};
}

/* Looks for long runs in the markup. A percent sign begins a reference in a document type alone. */
static void look_for_runs(struct feed *feed, uint64_t markup) {
    bool is_declared = is_in_subset(feed);
    if (feed_byte(feed, markup) != '%' || is_declared) {
        struct span text = {feed->text.data, feed->text.length};
        const struct offered offered = {markup, feed->begin, whole_characters(text, feed->given), text, held_by_parser(feed)};
        shortening_look(&feed->shortening, &offered, is_declared);
    }
}

/* Looks at the markup that libxml2 reads. */
static void check(struct feed *feed) {
    uint64_t markup = feed_markup(feed);
    section_look(&feed->section, markup, (struct span){feed->text.data, feed->given}, feed->begin);
    if (!feed->section.is_continued) {
        check_tag(feed, markup);
        look_for_runs(feed, markup);
    }
    check_length(feed, markup);
}

/* Lets libxml2 ask no more if it has all of the document. Else it asks at each token of the last 250 bytes, which takes long for many small documents. */
static void stop_asking(struct feed *feed) {
    xmlParserInputBufferPtr buffer = feed->parser->input == NULL ? NULL : feed->parser->input->buf;
    bool has_all = feed_has_all(feed) && feed->given == feed->text.length && feed->decoding.fault.kind == FAULT_NONE;
    if (has_all && buffer != NULL && buffer->context == feed) {
        buffer->readcallback = NULL;
    }
}

/* Whether there is enough of the text for libxml2, which wants so many bytes. */
static bool has_enough(const struct feed *feed, size_t wanted) {
    return feed->text.length - feed->given >= wanted + REFERENCE_AHEAD;
}

/* Writes so many bytes for libxml2. */
static void write_bytes(struct feed *feed, char *bytes, size_t count) {
    memcpy(bytes, feed->text.data + feed->given, count);
    make_shallow(&feed->models, bytes, count);
    if (feed->models.separators.failed) {
        fault_set(feed->fault, FAULT_MEMORY, (struct place){0, 0}, "out of memory");
    }
    feed->given += count;
}

/* Whether there may be more to read. */
static bool may_have_more(const struct feed *feed) {
    return feed->inclusions.text_count > 0 || (!feed->has_ended && feed->decoding.fault.kind == FAULT_NONE);
}

/* Reads until there are so many bytes that libxml2 has not got, or no more. False: there is a fault. */
static bool read_for(struct feed *feed, size_t wanted) {
    while (feed->fault->kind == FAULT_NONE && !has_enough(feed, wanted) && may_have_more(feed)) {
        forget(feed);
        feed->before_read(feed->context);
        if (feed->fault->kind != FAULT_NONE || !read_more(feed)) {
            return false;
        }
    }
    return true;
}

static struct span not_given(const struct feed *feed) {
    return (struct span){feed->text.data + feed->given, feed->text.length - feed->given};
}

/* Passes over bytes that libxml2 does not get. */
static void pass(struct feed *feed, size_t length) {
    feed->given += length;
    feed->scan.next = feed->begin + feed->given;
    section_pass(&feed->section, feed->scan.next);
}

/* Whether the reference at the start of the text ends within so many bytes. */
static bool has_reference_end(struct span text, size_t most) {
    return memchr(text.data, ';', text.length < most ? text.length : most) != NULL;
}

/* Leaves out the reference at which libxml2 is in a value. Returns its length; 0: there is none, or it stays. */
static size_t leave_reference(struct feed *feed) {
    if (!shortening_may_refer(&feed->shortening, not_given(feed)) || !read_for(feed, SHORT_BYTES)) {
        return 0;
    }
    if (!has_reference_end(not_given(feed), SHORT_BYTES) && !read_for(feed, REFERENCE_BYTES)) {
        return 0;
    }
    struct span next = not_given(feed);
    next.length = next.length < REFERENCE_BYTES ? next.length : REFERENCE_BYTES;
    size_t length = shortening_leave_reference(&feed->shortening, next);
    if (length > 0 || feed->shortening.scan.kind != RUN_VALUE) {
        return length;
    }
    struct bytes given = NO_BYTES;
    length = feed->shortening.expand(feed->context, next, &given);
    if (length > 0) {
        shortening_leave_given(&feed->shortening, length, (struct span){given.data, given.length});
    }
    bytes_free(&given);
    return length;
}

/* Leaves out the rest of the run at which libxml2 is, as long as what is kept of it is not too much. What libxml2 has got was looked at. */
static void leave_out(struct feed *feed) {
    size_t length = 0;
    do {
        length = shortening_leave_out(&feed->shortening, not_given(feed));
        pass(feed, length);
        size_t reference = leave_reference(feed);
        pass(feed, reference);
        length += reference;
        feed_check_memory(feed, feed->place);
    } while (length > 0 && read_for(feed, KEPT_ZEROS + 1) && feed->fault->kind == FAULT_NONE);
}

/* Gives the bytes before the cut to libxml2, and what it gets in the place of the rest of the run. Returns how many they are. */
static size_t give_shortened(struct feed *feed, char *bytes, size_t cut) {
    write_bytes(feed, bytes, cut);
    check(feed);
    uint64_t before = feed->begin + feed->given;
    leave_out(feed);
    size_t length = shortening_close(&feed->shortening, bytes + cut);
    feed->skew += feed->begin + feed->given - before - length;
    feed->shortened(feed->context);
    return cut + length;
}

/* Whether libxml2 holds many blanks that mean nothing: those between what is outside the root. More of them may be left out. */
static bool has_many_blanks(const struct feed *feed, uint64_t markup, struct span next) {
    bool is_blank_so_far = markup >= feed->begin + feed->given && next.length > 0 && is_blank(next.data[0]);
    return is_blank_so_far && feed->parser->nameNr == 0 && held_by_parser(feed) >= LONGEST_NAME;
}

/* Where a run is cut in the next bytes, of which libxml2 gets at most so many; SIZE_MAX: none is. */
static size_t shortening_cut(struct feed *feed, size_t most) {
    if (feed->parser == NULL || !feed_is_read(feed) || most < 2 * IN_PLACE_BYTES) {
        return SIZE_MAX;
    }
    uint64_t markup = feed_markup(feed);
    uint64_t offset = feed->begin + feed->given;
    struct span known = not_given(feed);
    if (has_many_blanks(feed, markup, known)) {
        shortening_begin_blanks(&feed->shortening, offset);
        return 0;
    }
    const struct offered offered = {markup, offset, whole_characters(known, most - IN_PLACE_BYTES), known, held_by_parser(feed)};
    return shortening_cut_in(&feed->shortening, &offered);
}

/* The place of `]]>` if the place is inside of one, or the place itself. */
static size_t before_end(struct span text, size_t at) {
    static const char end[] = "]]>";
    bool is_behind_two = at >= 2 && span_begins(span_from(text, at - 2), end);
    bool is_behind_one = at >= 1 && span_begins(span_from(text, at - 1), end);
    return is_behind_two ? at - 2 : is_behind_one ? at - 1 : at;
}

enum byte_kind { BYTE_OTHER, BYTE_BLANK, BYTE_OF_NAME };

static enum byte_kind kind_of_byte(char byte) {
    bool is_of_name = ((unsigned char)byte & 0x80) != 0 || isalnum((unsigned char)byte) || byte == '-' || byte == '.' || byte == '_' || byte == ':';
    return is_of_name ? BYTE_OF_NAME : is_blank(byte) ? BYTE_BLANK : BYTE_OTHER;
}

/* A place in the last long run of blanks, or of bytes of names, if it ends near the place; the place itself if there is none. Behind such a run libxml2 looks
 * at several bytes, as those of `SYSTEM`, without seeing to it that it has them. */
static size_t in_long_run(struct span text, size_t place) {
    size_t first = place > NEAR_BYTES + LONG_RUN ? place - NEAR_BYTES - LONG_RUN : 0;
    enum byte_kind kind = BYTE_OTHER;
    size_t end = place;
    for (size_t at = place; at > first; at--) {
        enum byte_kind before = kind_of_byte(text.data[at - 1]);
        end = before == kind ? end : at;
        kind = before;
        if (kind != BYTE_OTHER && end - at + 1 >= LONG_RUN) {
            return end - 1;
        }
    }
    return place;
}

/* Whether a declaration or an instruction may be at the place. */
static bool may_be_declared(const struct feed *feed, struct span text, size_t place) {
    size_t searched = place < SEARCHED_BYTES ? place : SEARCHED_BYTES;
    bool is_in_target = feed->section.kind != NULL && feed->section.data == UINT64_MAX;
    return is_in_subset(feed) || is_in_target || memchr(text.data + (place - searched), '?', searched) != NULL;
}

/* How many of the next bytes libxml2 gets, if it gets so many at most. Where it has read all that it has, it takes the first byte of a longer character for one
 * by itself, which it may have in a name, and does not see `]]>` in content if that goes on behind. So the bytes end neither before such a character nor
 * within `]]>`, nor soon behind a long run. */
static size_t good_count(const struct feed *feed, struct span next, size_t most) {
    size_t count = next.length < most ? next.length : most;
    bool is_end = feed_has_all(feed) && count == next.length;
    count = !is_end && may_be_declared(feed, next, count) ? in_long_run(next, count) : count;
    bool is_before_longer = count < next.length ? ((unsigned char)next.data[count] & 0xC0) == 0xC0 : !feed_has_all(feed);
    size_t good = before_end(next, is_before_longer && count > 0 ? count - 1 : count);
    return good > 0 ? good : count;
}

/* Gives at most so many bytes to libxml2, and cuts a long section. Returns how many they are. */
static size_t give_section(struct feed *feed, char *bytes, size_t most) {
    struct span next = not_given(feed);
    uint64_t offset = feed->begin + feed->given;
    size_t cut = SIZE_MAX;
    if (next.length >= most && most >= 2 * CUT_BYTES) {
        next.length = good_count(feed, next, most - CUT_BYTES);
        cut = section_cut_in(&feed->section, offset, (struct span){feed->text.data, feed->text.length}, feed->given, next.length);
    }
    if (cut == SIZE_MAX) {
        size_t count = good_count(feed, not_given(feed), most);
        write_bytes(feed, bytes, count);
        return count;
    }
    write_bytes(feed, bytes, next.length);
    return next.length + section_cut(&feed->section, bytes, next.length, cut, offset);
}

void feed_shrink(struct feed *feed) {
    bool is_in_section = feed->section.is_cut || feed->section.is_continued;
    if (feed_is_read(feed) && !is_in_section && held_by_parser(feed) >= LONGEST_HELD) {
        xmlParserInputShrink(feed->parser->input);
    }
}

void feed_move_to_rest(struct feed *feed) {
    if (feed->parting > 0 && feed_is_read(feed) && feed_offset(feed) > feed->parted_at) {
        feed->skew -= feed->parting;
        feed->parting = 0;
        feed_move(feed, feed->parted_at);
    }
}

/* Parts a long model in the next bytes, of which libxml2 gets so many at most. Returns how many it gets up to there; 0: no model is parted. */
static size_t give_parted(struct feed *feed, char *bytes, size_t most) {
    bool is_long = feed->parser != NULL && feed_is_read(feed) && held_by_parser(feed) >= LONGEST_HELD;
    if (!is_long || most < 2 * PARTING_BYTES || feed->parting > 0) {
        return 0;
    }
    size_t cut = model_parting(&feed->models, whole_characters(not_given(feed), most - PARTING_BYTES));
    if (cut == SIZE_MAX) {
        return 0;
    }
    write_bytes(feed, bytes, cut);
    feed->parting = part_model(&feed->models, bytes + cut);
    feed->parted_at = feed->begin + feed->given;
    return cut + feed->parting;
}

/* Where an attribute ends in the next bytes, of which libxml2 gets so many at most, if it has got enough of the tag. SIZE_MAX: none does. */
static size_t attribute_end(const struct feed *feed, size_t most) {
    struct span next = not_given(feed);
    struct tag_scan ahead = feed->scan;
    uint64_t offset = feed->begin + feed->given;
    bool is_wide = ahead.count >= USUAL_WIDTH && !ahead.has_ended && ahead.next == offset;
    char last = is_wide ? feed_byte(feed, offset - 1) : '\0';
    bool is_behind = ahead.quote == '\0' && (last == '"' || last == '\'');
    size_t at = 0;
    next.length = !is_wide || is_behind ? 0 : next.length < most ? next.length : most;
    while (at < next.length && !is_behind && !ahead.has_ended) {
        char quote = ahead.quote;
        scan(&ahead, (struct span){next.data + at++, 1});
        is_behind = quote != '\0' && ahead.quote == '\0';
    }
    return is_behind ? at : SIZE_MAX;
}

/* The next attribute. More of the text is read for it. */
static struct attribute_text next_attribute(struct feed *feed) {
    struct attribute_text found = attribute_at(not_given(feed));
    size_t wanted = PIECE_BYTES;
    while (found.is_cut && wanted <= MOST_AHEAD && may_have_more(feed) && read_for(feed, wanted)) {
        found = attribute_at(not_given(feed));
        wanted *= 2;
    }
    return found;
}

/* Leaves out an attribute of a wide tag. False: it has to stay. */
static bool leave_attribute(struct feed *feed, const struct attribute_text *attribute) {
    const struct reference_reader reader = {feed->shortening.expand, feed->context};
    return attribute->length > 0 && feed->fault->kind == FAULT_NONE && wide_tag_add(&feed->wide, attribute, &reader);
}

/* Leaves out attributes of a wide tag, as long as they are usual. */
static void leave_attributes(struct feed *feed) {
    uint64_t begin = feed->begin + feed->given;
    struct attribute_text next = next_attribute(feed);
    while (leave_attribute(feed, &next)) {
        shortening_pass_attribute(&feed->shortening, next.length);
        pass(feed, next.length);
        feed->scan.count++;
        check_tag(feed, feed->scan.tag);
        feed_check_memory(feed, feed->place);
        next = next_attribute(feed);
    }
    uint64_t behind = feed->begin + feed->given;
    if (behind > begin) {
        feed->wide.behind = behind;
        feed->wide.left = behind - begin;
        feed->skew += behind - begin;
        feed->shortened(feed->context);
    }
}

/* Gives at most so many bytes to libxml2, up to attributes that are left out. Returns how many they are. */
static size_t give_wide(struct feed *feed, char *bytes, size_t most) {
    bool may_be = feed->parser != NULL && feed->scan.count >= USUAL_WIDTH && feed_is_read(feed) && !is_in_subset(feed);
    uint64_t markup = may_be ? feed_markup(feed) : 0;
    size_t end = may_be && feed->scan.tag == markup ? attribute_end(feed, most) : SIZE_MAX;
    if (end == SIZE_MAX) {
        return 0;
    }
    if (end > 0) {
        write_bytes(feed, bytes, end);
        check(feed);
    }
    if (feed->fault->kind == FAULT_NONE && shortening_is_behind_attribute(&feed->shortening, markup, feed->begin + feed->given)) {
        leave_attributes(feed);
        read_for(feed, most);
    }
    return end;
}

/* Passes over choices, as long as what is kept of the document is not too much. */
static void pass_choices(struct feed *feed, struct choice_scan *choices) {
    size_t length = 0;
    do {
        length = choices_leave_out(choices, not_given(feed));
        pass(feed, length);
        shortening_pass_choices(&feed->shortening, feed_markup(feed), feed->begin + feed->given);
        feed_check_memory(feed, feed->place);
    } while (length > 0 && read_for(feed, 1) && feed->fault->kind == FAULT_NONE);
}

/* Leaves out the choices that come next if libxml2 has enough of a list, and reads so many bytes that come behind them. Returns how many bytes it gets, which
 * are the rest of a character, and what is in the place of the others. */
static size_t leave_choices(struct feed *feed, char *bytes, size_t most) {
    struct choice_scan *choices = &feed->models.choices;
    if (!models_have_choices(&feed->models) || !is_in_subset(feed) || !feed_is_read(feed) || most < 2 * IN_PLACE_BYTES) {
        return 0;
    }
    size_t count = whole_characters(not_given(feed), 0).length;
    write_bytes(feed, bytes, count);
    uint64_t before = feed->begin + feed->given;
    size_t known = choices->given < feed->given ? choices->given : feed->given;
    struct span given = {feed->text.data + feed->given - known, known};
    if (!choices_begin(choices, given)) {
        return count;
    }
    pass_choices(feed, choices);
    const char *in_place = choices_close(choices);
    memcpy(bytes + count, in_place, strlen(in_place));
    feed->skew += feed->begin + feed->given - before - strlen(in_place);
    feed->shortened(feed->context);
    (void)read_for(feed, most);
    return count + strlen(in_place);
}

/* How many bytes libxml2 may get at once, of which it asks for `most`. */
static size_t most_at_once(const struct feed *feed, size_t most) {
    size_t enough = is_in_subset(feed) ? choices_most(&feed->models.choices, not_given(feed), most) : most;
    return shortening_most(&feed->shortening, feed->begin + feed->given, enough);
}

/* Gives at most so many bytes to libxml2, with less of long markup and more of long sections. Returns how many they are. */
static size_t give(struct feed *feed, char *bytes, size_t most) {
    size_t count = leave_choices(feed, bytes, most);
    most = most_at_once(feed, most);
    count += give_wide(feed, bytes + count, most - count);
    count += give_parted(feed, bytes + count, most - count);
    size_t cut = shortening_cut(feed, most - count);
    while (cut != SIZE_MAX && feed->fault->kind == FAULT_NONE) {
        count += give_shortened(feed, bytes + count, cut);
        cut = read_for(feed, most - count) ? shortening_cut(feed, most - count) : SIZE_MAX;
    }
    return feed->fault->kind == FAULT_NONE ? count + give_section(feed, bytes + count, most - count) : count;
}

/* Keeps the offsets of libxml2 small, since it compares them as numbers of 32 bits, and would not see that it reads nothing more. */
static void count_from_zero(struct feed *feed) {
    xmlParserInput *input = feed->parser == NULL || feed->parser->inputNr < 1 || feed->is_away ? NULL : feed->parser->inputTab[0];
    if (input != NULL && input->consumed > MOST_CONSUMED) {
        feed->skew += input->consumed;
        input->consumed = 0;
        feed->taken_back = ULONG_MAX;
    }
}

/* Takes the fault in the document's bytes once libxml2 has got all that is before it. */
static void take_fault(struct feed *feed) {
    struct fault *why = &feed->decoding.fault;
    if (feed->given == feed->text.length && feed->inclusions.text_count == 0 && why->kind != FAULT_NONE) {
        struct place place = why->kind == FAULT_MEMORY ? (struct place){0, 0} : feed_place(feed, end_of(feed));
        fault_set(feed->fault, why->kind, place, "%s", bytes_text(&why->what));
    }
}

/* libxml2 looks ahead in what it gets at once, so it gets all that it asks for unless the document ends. */
int feed_read(void *context, char *bytes, int length) {
    struct feed *feed = context;
    size_t wanted = length > 0 ? (size_t)length : 0;
    count_from_zero(feed);
    if (!read_for(feed, wanted + (held_by_parser(feed) < LONGEST_HELD ? 0 : LONGEST_NAME + SHORT_BYTES))) {
        return -1;
    }
    take_fault(feed);
    if (feed->fault->kind != FAULT_NONE) {
        return -1;
    }
    if (feed->text.length == feed->given || wanted == 0) {
        return 0;
    }
    size_t count = give(feed, bytes, wanted);
    if (count == 0) { /* all that came before the fault was left out, and libxml2 must not take that for the end */
        take_fault(feed);
    }
    stop_asking(feed);
    check(feed);
    return feed->fault->kind == FAULT_NONE ? (int)count : -1;
}
