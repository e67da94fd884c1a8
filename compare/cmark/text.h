/*
 * A text, and its lines.
 */
#ifndef TEXT_H
#define TEXT_H

#include <stdint.h>
#include <string.h>

/* Bytes of a text at most. */
#define ROOM 400

/* Columns from one tab stop to the next, and of indented code. */
#define TAB_STOP 4

#define COUNT_OF(list) (sizeof(list) / sizeof(list)[0])

typedef struct {
    size_t length;
    uint8_t bytes[ROOM + 1];
} text;

static void add_byte(text *t, uint8_t byte) {
    if (t->length < ROOM) {
        t->bytes[t->length++] = byte;
    }
}

static void add(text *t, const char *s) {
    for (; *s != '\0'; s++) {
        add_byte(t, (uint8_t)*s);
    }
}

static uint8_t lower(uint8_t byte) {
    return byte >= 'A' && byte <= 'Z' ? (uint8_t)(byte - 'A' + 'a') : byte;
}

static uint8_t upper(uint8_t byte) {
    return byte >= 'a' && byte <= 'z' ? (uint8_t)(byte - 'a' + 'A') : byte;
}

static int is_control(uint8_t byte) {
    return byte == '\f' || byte == '\v';
}

static int is_ending(uint8_t byte) {
    return byte == '\n' || byte == '\r';
}

static int is_blank(uint8_t byte) {
    return byte == ' ' || byte == '\t';
}

/* Where the line ends that has this index. */
static size_t line_end(const text *t, size_t index) {
    while (index < t->length && !is_ending(t->bytes[index])) {
        index++;
    }
    return index;
}

/* Where the next line begins, behind the line ending at this index. */
static size_t next_line(const text *t, size_t end) {
    int two = t->bytes[end] == '\r' && end + 1 < t->length && t->bytes[end + 1] == '\n';
    return end + (two ? sizeof "\r\n" - 1 : 1);
}

/* How many line endings there are between two indices. */
static size_t endings_between(const text *t, size_t index, size_t stop) {
    size_t count = 0;
    for (index = line_end(t, index); index < stop; index = line_end(t, next_line(t, index))) {
        count++;
    }
    return count;
}

static size_t line_count(const text *t) {
    return endings_between(t, 0, t->length) + 1;
}

static size_t past_blanks(const text *t, size_t index, size_t end) {
    while (index < end && is_blank(t->bytes[index])) {
        index++;
    }
    return index;
}

/* The columns of a line's indentation. */
static size_t indentation(const text *t, size_t index, size_t end) {
    size_t column = 0;
    for (; index < end && is_blank(t->bytes[index]); index++) {
        column += t->bytes[index] == '\t' ? TAB_STOP - column % TAB_STOP : 1;
    }
    return column;
}

/* A byte of a text, or a line ending behind its end. */
static uint8_t byte_at(const text *t, size_t index) {
    return index < t->length ? t->bytes[index] : '\n';
}

static int is_digit(uint8_t byte) {
    return byte >= '0' && byte <= '9';
}

/*
 * Whether a line may begin a construct that the library does not know: a block quote, fence, heading, underline of a heading, thematic break or list item. But
 * for the first two, whitespace (libcmark takes any) stands behind the run of equal bytes, or a `.` or `)` behind the digits.
 */
static int begins_other(const text *t, size_t index, size_t end) {
    size_t first = past_blanks(t, index, end);
    uint8_t byte = byte_at(t, first);
    size_t behind = first;
    while (behind < end && (t->bytes[behind] == byte || (is_digit(byte) && is_digit(t->bytes[behind])))) {
        behind++;
    }
    uint8_t next = byte_at(t, behind);
    if (is_digit(byte)) {
        return next == '.' || next == ')';
    }
    return byte == '>' || byte == '~' || (strchr("-+*_#=", byte) != NULL && (is_blank(next) || is_ending(next) || is_control(next)));
}

/* Whether a line that begins a paragraph may be indented code, or a link's definition. */
static int begins_no_paragraph(const text *t, size_t index, size_t end) {
    return indentation(t, index, end) >= TAB_STOP || byte_at(t, past_blanks(t, index, end)) == '[';
}

/* Whether a text is one paragraph: behind its first line no line is blank but the last, or may begin a block. */
static int is_paragraph(const text *t) {
    size_t end = line_end(t, 0);
    if (byte_at(t, 0) != 'x') {
        return 0;
    }
    while (end < t->length) {
        size_t start = next_line(t, end);
        end = line_end(t, start);
        size_t first = past_blanks(t, start, end);
        if ((first == end && end < t->length) || byte_at(t, first) == '<' || begins_other(t, start, end)) {
            return 0;
        }
    }
    return 1;
}

/* The text as one paragraph: `x` in front, blank lines left out, and `y` where a line might begin a block. */
static void make_paragraph(text *t) {
    const text before = *t;
    size_t start = 0;
    t->length = 0;
    add(t, "x");
    for (;;) {
        size_t end = line_end(&before, start);
        size_t first = past_blanks(&before, start, end);
        for (size_t i = start; i < end && (start == 0 || first < end); i++) {
            if (i == first && start > 0 && (before.bytes[i] == '<' || begins_other(&before, start, end))) {
                add(t, "y");
            }
            add_byte(t, before.bytes[i]);
        }
        if (end == before.length) {
            return;
        }
        size_t next = next_line(&before, end);
        for (size_t i = end; i < next && (start == 0 || first < end); i++) {
            add_byte(t, before.bytes[i]);
        }
        start = next;
    }
}

#endif
