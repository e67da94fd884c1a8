/*
 * Raw HTML in bulletins: what it is, what is shown without it, and what GitHub's tag filter makes of it.
 *
 * A slice is a pointer and a length, in bytes but for spans, where it counts numbers. With length 0 nothing is read or written behind the pointer; it may be any
 * pointer but NULL. What is written to shares no byte with another slice, so `out` is never the bulletin or trace itself. Any bytes are taken, valid UTF-8 or not,
 * and NUL among them; what is written has no NUL at its end and is not escaped for HTML: foringamo_filter replaces the `<` of nine tags and no other byte. Nothing is
 * kept when a function returns, none of them allocates, and any number of threads may call them.
 *
 * Every result comes back by value; but for the count of lines and a stretch, which refuse nothing, it begins with its refusal. Look at it first: a refusal also has
 * kind 0, found 0 or count 0, which without a refusal means that nothing was found.
 *
 *     0  not refused
 *     1  the bulletin or text has over 1,000,000 bytes
 *     2  the count of flags is not the number of lines
 *     3  a flag is above 3
 *     4  the index: in a bulletin not a line's first byte, in an inline text above its length
 *     5  the carry is above 5
 *     6  the inline text has two line endings with only spaces, tabs or no bytes between
 *     7  the output buffer, or the list of spans, is shorter than the output needs
 *     8  reading or converting a trace: a kind byte is 0 or above 14
 *     9  reading or converting a trace: a record is cut off; reading it, also: there are not so many (so a loop over all records ends with 9)
 *    10  converting a trace: it has not exactly one last record, at its end
 *    11  making a trace narrow: a line, column, index or stop is above 65,535
 *    12  showing: the spans given are not whole, out of order, overlapping, past the bulletin's end, with a stop not above the start, or of a kind above 1
 *
 * Of 1 to 7 the first that applies is given; converting a trace, 8 or 9 comes first, then 10, 11 and 7; showing, 1, then 12, then 7. On a refusal every other field
 * is 0 but the carry, which is the one passed in, and the name, which is 255; nothing changes in the output buffer or the list. On an answer what stands there past
 * what was written stays as it is.
 *
 * A bulletin has one line more than it has line endings (LF, CR LF, or CR), also where it is empty or ends in one, and a flag for each line;
 * foringamo_count_lines says how many. A flag tells what a Markdown parser knows of the line; without one, all flags are 0:
 *
 *     1  lazy: it lacks the marker of a block quote or list item that the lines before it are in
 *     2  interrupt: the line before it belongs to a paragraph that it may go on
 *     3  both
 *
 * An index and a stop count bytes from 0, in the slice passed in; a stop is behind the last byte taken. A block's stop is before the line ending behind it, and
 * the next line begins behind that; for the empty last line the index is the length.
 *
 * Each call looks through its whole input for refusals, and foringamo_read_trace walks from the first record. To scan at every line of a long bulletin, or to read
 * every record of a long trace by its number, therefore takes the square of its length in time. Instead, hand an inline scan the paragraph's text only, scan for
 * blocks only at lines that begin with `<` behind at most three spaces, as no other opens one, and walk the trace's bytes: a record's kind tells its length.
 *
 * foringamo_find, foringamo_withhold, those of the standard and foringamo_filter go through a bulletin once where there is the room that always suffices, else twice:
 * first to count what they would write.
 *
 * There are two readings. Functions with `standard` in their names read to the letter of CommonMark 0.31.2 (HTML blocks, Raw HTML). The others read as the Rust crate
 * markdown 1.0.0 does, which departs from it in eight places: where a block of kind 5 closes, in five places what opens kind 7, in one what an inline open tag is,
 * and in the carry, which by the standard is neither read nor changed. So a bulletin may show other bytes in the two: choose one, and keep to it.
 */
#ifndef FORINGAMO_H
#define FORINGAMO_H

#include <stddef.h>
#include <stdint.h>

#define FORINGAMO_VERSION "0.6.0"

#ifdef __cplusplus
extern "C" {
#endif

/*
 * The block that a line opens. Its kinds: 1 raw (pre, script, style, textarea), 2 comment, 3 instruction, 4 declaration, 5 CDATA, 6 basic (a name such as div or
 * table), 7 complete (any other tag that fills its line). The closers: 1 the end tag of any raw name, 2 `-->`, 3 `?>`, 4 `>`, 5 `]]>`; of `--->` or `]]]]>` only the
 * last three bytes. A closer may begin within the opening, as in `<!-->`.
 */
typedef struct {
    uint8_t refusal;
    uint8_t kind;   /* 1 to 7; 0: none, stop and closer 0 */
    uint8_t closed; /* 1: a closer was met, never for kinds 6 and 7; else 0 */
    uint8_t name;   /* kinds 1 and 6: the place of its name in the list below, from 0; 255: any other kind, or none */
    size_t stop;
    size_t closer;  /* the first byte of the closer, or the stop where none was met */
} foringamo_block;

/* The name of a block that has none. */
#define FORINGAMO_NO_NAME 255

/* The 4 names of kind 1 and the 62 of kind 6, each in its place: static const char *const names[] = {FORINGAMO_BLOCK_NAMES}; */
#define FORINGAMO_RAW_NAMES "pre", "script", "style", "textarea"
#define FORINGAMO_BLOCK_NAMES \
    "address", "article", "aside", "base", "basefont", "blockquote", "body", "caption", "center", "col", "colgroup", "dd", "details", "dialog", "dir", \
    "div", "dl", "dt", "fieldset", "figcaption", "figure", "footer", "form", "frame", "frameset", "h1", "h2", "h3", "h4", "h5", "h6", "head", \
    "header", "hr", "html", "iframe", "legend", "li", "link", "main", "menu", "menuitem", "nav", "noframes", "ol", "optgroup", "option", "p", "param", \
    "search", "section", "summary", "table", "tbody", "td", "tfoot", "th", "thead", "title", "tr", "track", "ul"

/* The inline piece that begins at an index. */
typedef struct {
    uint8_t refusal;
    uint8_t found; /* 1: found; 0: none, stop 0 */
    uint8_t carry; /* letters of `CDATA[` counted so far, 0 to 5, as the Rust keeps them from one scan to the next */
    size_t stop;
} foringamo_inline;

/* What was written, by a trace, by the filter, by a conversion or by showing. */
typedef struct {
    uint8_t refusal;
    size_t length; /* bytes written */
} foringamo_written;

/* A trace that was written: the same type, under the name that it had before there was a filter. */
typedef foringamo_written foringamo_trace;

/*
 * A record of a trace. Kinds 1 to 12 are events, enter (odd) and exit (even) of HtmlFlow, HtmlFlowData, LineEnding, HtmlText, HtmlTextData and SpaceOrTab;
 * 13 is the last record of an inline trace, 14 that of a block trace. In the trace an event has 14 bytes: the kind, line, column and index in four bytes each, low
 * byte first, and vs. A last record has 6: the kind, the stop in four bytes, low byte first, and the carry or block kind.
 *
 * Such a trace is wide. Before version 0.4 traces were narrow, with two bytes for each line, column, index and stop: an event has 8 bytes there, a last record 4.
 * Only foringamo_widen_trace takes a narrow trace, and only foringamo_narrow_trace writes one.
 */
typedef struct {
    uint8_t refusal;
    uint8_t kind;
    uint8_t last;  /* 1 to 12: vs, the readings already made of a tab; 13: the carry; 14: the block kind, 0 for none */
    size_t line;   /* from 1; 0 for 13 and 14 */
    size_t column; /* from 1; 0 for 13 and 14 */
    size_t index;  /* 1 to 12: the index; 13 and 14: the stop */
} foringamo_record;

/* What was shown. */
typedef struct {
    uint8_t refusal;
    size_t length; /* bytes written */
    size_t pieces; /* blocks and inline pieces withheld, together: as many spans were written */
} foringamo_shown;

/* What was found. */
typedef struct {
    uint8_t refusal;
    size_t count; /* spans written, of three numbers each */
} foringamo_spans;

/* A part of a bulletin. */
typedef struct {
    size_t start;
    size_t length;
} foringamo_part;

/* The number of lines of a text of any length: as many flags as a bulletin takes. An empty text has one line. */
size_t foringamo_count_lines(const uint8_t *text, size_t text_len);

/* The block that the line at the index opens. Refusals 1, 2, 3, 4. */
foringamo_block foringamo_block_scan(const uint8_t *bulletin, size_t bulletin_len, const uint8_t *flags, size_t flags_len, size_t index);

/* The same by the standard. Refusals 1, 2, 3, 4. */
foringamo_block foringamo_standard_block_scan(const uint8_t *bulletin, size_t bulletin_len, const uint8_t *flags, size_t flags_len, size_t index);

/*
 * The inline piece at the index of a paragraph's text; none where the byte there is not `<`. Pass carry 0: one that is passed on from a scan before gives what
 * the Rust gives, and a CDATA section may then be missed. Refusals 1, 4, 5, 6.
 */
foringamo_inline foringamo_inline_scan(const uint8_t *text, size_t text_len, size_t index, uint8_t carry);

/* The same by the standard. The carry has no effect and comes back as it was passed; above 5 it is refused all the same. Refusals 1, 4, 5, 6. */
foringamo_inline foringamo_standard_inline_scan(const uint8_t *text, size_t text_len, size_t index, uint8_t carry);

/*
 * Writes the trace of foringamo_block_scan: its events and its answer, as records. Where nothing is found the last record's stop is the index. Room for
 * bulletin_len * 28 + 6 bytes always suffices; `<?` and line endings need all of it, 28,000,006 bytes at the limit. Refusals 1, 2, 3, 4, 7.
 */
foringamo_trace foringamo_block_trace(const uint8_t *bulletin, size_t bulletin_len, const uint8_t *flags, size_t flags_len, size_t index, uint8_t *out, size_t out_len);

/* Writes the trace of foringamo_inline_scan. Room for text_len * 28 + 6 bytes always suffices. Refusals 1, 4, 5, 6, 7. */
foringamo_trace foringamo_inline_trace(const uint8_t *text, size_t text_len, size_t index, uint8_t carry, uint8_t *out, size_t out_len);

/* The record of a number, counted from 0. The first bad record on the way decides; later ones are not looked at. Refusals 8, 9. */
foringamo_record foringamo_read_trace(const uint8_t *trace, size_t trace_len, size_t number);

/*
 * Writes a narrow trace as a wide one: the same records, with their kinds and values, in their order. They always fit: 8 * e + 4 bytes, where e counts the events,
 * become 14 * e + 6, of which foringamo_narrow_trace makes the first bytes again.
 *
 * A trace here is whole records, the last and no other of kind 13 or 14. It may have any length; events may be of any kinds in any order, and vs, carry and block kind
 * any byte. The first bad record decides between 8 and 9, and all are looked at, those behind a last record too; 10 is for the empty trace too. The time is linear in
 * the trace's length. Refusals 8, 9, 10, 7.
 */
foringamo_written foringamo_widen_trace(const uint8_t *trace, size_t trace_len, uint8_t *out, size_t out_len);

/*
 * Writes a wide trace as a narrow one: 14 * e + 6 bytes become 8 * e + 4, of which foringamo_widen_trace makes the first bytes again. Where a line, column, index or
 * stop is above 65,535 it is refused; all else is as above. Refusals 8, 9, 10, 11, 7.
 */
foringamo_written foringamo_narrow_trace(const uint8_t *trace, size_t trace_len, uint8_t *out, size_t out_len);

/*
 * Finds what is withheld, so that a screen can show the rest and draw a bar where something is not. A piece is a block or an inline piece; its span is three numbers,
 * the index of its first byte, the stop behind its last, and its kind, 0 for inline or 1 for a block. A block begins with its line, spaces included. The list is
 * filled from its front with the span of each piece, in text order: they do not overlap, though two may touch. Room for bulletin_len * 3 numbers always suffices. In
 * a paragraph a `<` behind an odd number of backslashes in a row is text, in both readings, for withholding and for the filter too. Refusals 1, 2, 3, 7.
 */
foringamo_spans foringamo_find(const uint8_t *bulletin, size_t bulletin_len, const uint8_t *flags, size_t flags_len, uint32_t *spans, size_t spans_len);

/* The same by the standard, over its own blocks and inline pieces. Refusals 1, 2, 3, 7. */
foringamo_spans foringamo_standard_find(const uint8_t *bulletin, size_t bulletin_len, const uint8_t *flags, size_t flags_len, uint32_t *spans, size_t spans_len);

/*
 * Writes the bytes of a bulletin that no span holds, in their order. Pass spans_len as three times what was found, not the length of the list; spans from elsewhere
 * are taken too, and their kinds are checked but make no difference. Room for bulletin_len bytes always suffices. Refusals 1, 12, 7.
 */
foringamo_written foringamo_show(const uint8_t *bulletin, size_t bulletin_len, const uint32_t *spans, size_t spans_len, uint8_t *out, size_t out_len);

/*
 * The stretch of a number, counted from 0, as a part of the bulletin itself: what is shown before the span of that number, or after the last one. There is one more
 * than there are spans, and all of them, one after the other, are what foringamo_show writes. A stretch can be empty, where two spans touch, or one begins or ends the
 * bulletin; its start is right even so. Both fields are 0 for a number past the last, and for a bulletin or spans that foringamo_show refuses by 1 or 12. Each call
 * looks through all spans: a caller of many reads a part's ends from the list instead, start from the stop before and stop from the next start.
 */
foringamo_part foringamo_stretch(const uint8_t *bulletin, size_t bulletin_len, const uint32_t *spans, size_t spans_len, size_t number);

/*
 * Writes the bulletin without its raw HTML: foringamo_find, and then foringamo_show beside what was found. A refusal leaves the list as it was, too. Room for
 * bulletin_len * 3 numbers and bulletin_len bytes always suffices. Refusals 1, 2, 3, 7.
 *
 * Two bulletins that differ only in private pieces, in any number of them, show alike, and their lists have as many spans. Such a piece is the body of a comment, an
 * instruction, a declaration or a CDATA section that is withheld with its opening and closer, or whole lines, as many in both, between the first line of a block of
 * kinds 1 to 5 and the one with its closer, all and the line before ended by LF. It has no `<`, `>`, `"`, `'`, `?`, `]`, `-` or CR, and a body no LF. But a list tells
 * how long each withheld piece is, and so does a bar of that length: do not show either where a length is private.
 */
foringamo_shown foringamo_withhold(const uint8_t *bulletin, size_t bulletin_len, const uint8_t *flags, size_t flags_len, uint32_t *spans, size_t spans_len, uint8_t *out, size_t out_len);

/* The same by the standard: foringamo_standard_find, and then foringamo_show. Refusals 1, 2, 3, 7. */
foringamo_shown foringamo_standard_withhold(const uint8_t *bulletin, size_t bulletin_len, const uint8_t *flags, size_t flags_len, uint32_t *spans, size_t spans_len, uint8_t *out, size_t out_len);

/*
 * Writes the bulletin as GitHub's tag filter shows it (GitHub Flavored Markdown Spec, Disallowed Raw HTML). The blocks and inline pieces are those that
 * foringamo_withhold leaves out; here they are written, but the `<` of a tag named title, textarea, style, xmp, iframe, noembed, noframes, script or plaintext,
 * in any letter case, opening or closing, as `&lt;`. Such a tag is `<`, an optional `/` and the name, with a space, a tab, a line ending, `>` or `/>` behind it in
 * the bulletin, even beyond the block's stop; `<script` at the bulletin's very end has nothing behind it and stays. In a block every such place counts, of an
 * inline piece only its first byte can, and outside of both nothing changes.
 *
 * What is written is HTML, with all that foringamo_withhold would hide. Room for bulletin_len * 8 / 5 bytes always suffices: the 5 bytes of `<xmp>` become 8, and no
 * five bytes become more. Refusals 1, 2, 3, 7.
 */
foringamo_written foringamo_filter(const uint8_t *bulletin, size_t bulletin_len, const uint8_t *flags, size_t flags_len, uint8_t *out, size_t out_len);

#ifdef __cplusplus
}
#endif

#endif
