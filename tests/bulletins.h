/*
 * Bulletins for the programs in tests/ that check the C interface: the longest, their pieces by the scans of either reading, and pseudo-random ones.
 */
#ifndef BULLETINS_H
#define BULLETINS_H

#include "check.h"
#include "reading.h"

/* The most bytes that a bulletin or text has. */
enum { LIMIT = 1000000 };

/* Of a pseudo-random bulletin: the most bytes of a part, the most parts, and the most bytes. */
enum { LONGEST_FRAGMENT = 13, MOST_FRAGMENTS = 30, SHORT = LONGEST_FRAGMENT * MOST_FRAGMENTS };

/* One byte above the limit, and flags for as many lines as that can have. */
static uint8_t big[LIMIT + 1];
static const uint8_t zeros[LIMIT + 2];
static const uint8_t wrong[] = {4, 4};

/* A bulletin, its flags, and what is shown of it. */
typedef struct {
    const uint8_t *bulletin;
    size_t length;
    const uint8_t *flags;
    size_t lines;
    const uint8_t *shown;
    size_t shown_length;
} screen_case;

/* The case of two texts, all flags 0. */
static inline screen_case case_of(const char *bulletin, const char *shown) {
    screen_case row = {(const uint8_t *)bulletin, strlen(bulletin), zeros, 0, (const uint8_t *)shown, strlen(shown)};
    row.lines = foringamo_count_lines(row.bulletin, row.length);
    return row;
}

/* Writes bytes so many times, and gives the place behind. */
static inline uint8_t *repeat(uint8_t *to, const char *bytes, size_t times) {
    size_t length = strlen(bytes);
    for (size_t i = 0; i < times; i++) {
        memcpy(to, bytes, length);
        to += length;
    }
    return to;
}

/* What a byte of a bulletin is: outside of HTML, in it, or in it where a tag counts. */
enum { OUTSIDE, INSIDE, COUNTS };

/* Where the line ends that has this index. */
static inline size_t line_stop(const screen_case *row, size_t index) {
    while (index < row->length && row->bulletin[index] != '\n' && row->bulletin[index] != '\r') {
        index++;
    }
    return index;
}

/* Behind the line ending at an index. */
static inline size_t next_line(const screen_case *row, size_t index) {
    return index + (index + 1 < row->length && row->bulletin[index] == '\r' && row->bulletin[index + 1] == '\n' ? 2 : 1);
}

static inline int is_blank(const screen_case *row, size_t index) {
    size_t stop = line_stop(row, index);
    while (index < stop && (row->bulletin[index] == ' ' || row->bulletin[index] == '\t')) {
        index++;
    }
    return index == stop;
}

static inline foringamo_block block_at(const reading *by, const screen_case *row, size_t index) {
    return by->block_scan(row->bulletin, row->length, row->flags, row->lines, index);
}

/* Where the paragraph ends whose first line has this index. */
static inline size_t paragraph_stop(const reading *by, const screen_case *row, size_t index) {
    size_t stop = line_stop(row, index);
    while (stop < row->length && !is_blank(row, next_line(row, stop)) && block_at(by, row, next_line(row, stop)).kind == 0) {
        stop = line_stop(row, next_line(row, stop));
    }
    return stop;
}

/* Whether an odd run of backslashes stands before an index, counted back to a start. */
static inline int is_escaped(const uint8_t *text, size_t start, size_t index) {
    size_t first = index;
    while (first > start && text[first - 1] == '\\') {
        first--;
    }
    return (index - first) % 2 == 1;
}

/* A piece: its first byte, the stop behind its last, and of a block its kind and whether its closer was met. */
typedef struct {
    size_t start;
    size_t stop;
    uint8_t kind; /* 0: an inline piece */
    uint8_t closed;
} screen_piece;

/* The pieces of a short bulletin, in text order. */
typedef struct {
    size_t count;
    screen_piece pieces[SHORT];
} piece_list;

static inline void put_piece(piece_list *list, size_t start, size_t stop, uint8_t kind, uint8_t closed) {
    list->pieces[list->count++] = (screen_piece){start, stop, kind, closed};
}

/* The inline pieces of the paragraph between two indices. */
static inline void list_paragraph(const reading *by, const screen_case *row, size_t first, size_t last, piece_list *list) {
    const uint8_t *text = row->bulletin + first;
    size_t start = 0, index = 0;
    while (index < last - first) {
        foringamo_inline piece = by->inline_scan(text, last - first, index, 0);
        if (piece.found && !is_escaped(text, start, index)) {
            put_piece(list, first + index, first + piece.stop, 0, 0);
            index = piece.stop;
            start = index;
        } else {
            index++;
        }
    }
}

/* The pieces of a bulletin, by the two scans of a reading, as withholding takes them: docs/SCOPE.md, Withhold. */
static inline void list_pieces(const reading *by, const screen_case *row, piece_list *list) {
    size_t index = 0;
    list->count = 0;
    for (;;) {
        size_t stop = line_stop(row, index);
        foringamo_block block = block_at(by, row, index);
        if (block.kind != 0) {
            stop = block.stop;
            put_piece(list, index, stop, block.kind, block.closed);
        } else if (!is_blank(row, index)) {
            stop = paragraph_stop(by, row, index);
            list_paragraph(by, row, index, stop, list);
        }
        if (stop == row->length) {
            return;
        }
        index = next_line(row, stop);
    }
}

/* What the bytes of a bulletin are, by its pieces: in a block a tag counts everywhere, in an inline piece at its first byte. */
static inline void mark_pieces(const reading *by, const screen_case *row, uint8_t *marks) {
    static piece_list list;
    list_pieces(by, row, &list);
    memset(marks, OUTSIDE, row->length);
    for (size_t i = 0; i < list.count; i++) {
        const screen_piece *piece = &list.pieces[i];
        memset(marks + piece->start, piece->kind != 0 ? COUNTS : INSIDE, piece->stop - piece->start);
        marks[piece->start] = COUNTS;
    }
}

/* The parts that bulletins are made of. Some stand there more than once, so that tags are frequent, and some for the places where the readings part. */
static const char *const fragments[] = {
    "title", "TextArea", "style", "xmp", "XMP", "iframe", "noembed", "NOFRAMES", "script", "plaintext",
    "<", "<", "<", "<", "<", "<", "</", "</", "</", "</", ">", ">", ">", ">", ">", "/>", "/", " ", " ", "\t", "\n", "\n", "\r\n", "\r", "\n\n",
    "<!--", "-->", "<?", "?>", "<!A", "<![CDATA[", "]]>", "<div>", "<b ", "</script>", "<![", "]]]>", "<a b=c/d>",
    "\n<a 1>\n", "\n<pre/>\n", "\\", "\\", "\\<", "\\\\<", "a", "Z", "9", "-", "=", "\"", "'",
};

enum { FRAGMENTS = sizeof fragments / sizeof *fragments };

/* A bulletin of some of these parts, with some flags; nothing is shown of it yet. */
static inline screen_case random_bulletin_of(const char *const *parts, size_t number) {
    static uint8_t bulletin[SHORT], flags[SHORT + 1];
    size_t length = 0;
    for (size_t count = below(MOST_FRAGMENTS + 1); count > 0; count--) {
        const char *fragment = parts[below(number)];
        memcpy(bulletin + length, fragment, strlen(fragment));
        length += strlen(fragment);
    }
    screen_case row = {bulletin, length, flags, foringamo_count_lines(bulletin, length), NULL, 0};
    for (size_t line = 0; line < row.lines; line++) {
        flags[line] = (uint8_t)(below(4) == 0 ? below(4) : 0);
    }
    return row;
}

static inline screen_case random_bulletin(void) {
    return random_bulletin_of(fragments, FRAGMENTS);
}

/* Whether withholding shows the bytes that are outside of these pieces. */
static inline int withholds(const reading *by, const screen_case *row, const uint8_t *marks) {
    static uint8_t left[SHORT];
    foringamo_shown r = by->withhold(row->bulletin, row->length, row->flags, row->lines, left, sizeof left);
    size_t length = 0;
    int good = r.refusal == 0;
    for (size_t i = 0; i < row->length; i++) {
        if (marks[i] == OUTSIDE) {
            good &= left[length++] == row->bulletin[i];
        }
    }
    return good && r.length == length;
}

#endif
