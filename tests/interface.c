/*
 * The C interface: the layout of its structs, the count of lines, the names in their places, each first byte of a name, every refusal, what becomes of the output
 * buffer, and where the two readings part; tests/filter.c has the tag filter, tests/long.c long bulletins, tests/conversion.c the conversion of traces, tests/spans.c
 * finding and showing. tests/interface.sh builds and runs all five. A line for each check that fails; the last line is 'N passed, M failed'.
 */
#include <ctype.h>

#include "bulletins.h"

static void layout(void) {
    CHECK(sizeof(foringamo_block) == 24);
    CHECK(offsetof(foringamo_block, refusal) == 0);
    CHECK(offsetof(foringamo_block, kind) == 1);
    CHECK(offsetof(foringamo_block, closed) == 2);
    CHECK(offsetof(foringamo_block, name) == 3);
    CHECK(offsetof(foringamo_block, stop) == 8);
    CHECK(offsetof(foringamo_block, closer) == 16);
    CHECK(sizeof(foringamo_inline) == 16);
    CHECK(offsetof(foringamo_inline, refusal) == 0);
    CHECK(offsetof(foringamo_inline, found) == 1);
    CHECK(offsetof(foringamo_inline, carry) == 2);
    CHECK(offsetof(foringamo_inline, stop) == 8);
    CHECK(sizeof(foringamo_written) == 16);
    CHECK(offsetof(foringamo_written, refusal) == 0);
    CHECK(offsetof(foringamo_written, length) == 8);
    CHECK(sizeof(foringamo_record) == 32);
    CHECK(offsetof(foringamo_record, refusal) == 0);
    CHECK(offsetof(foringamo_record, kind) == 1);
    CHECK(offsetof(foringamo_record, last) == 2);
    CHECK(offsetof(foringamo_record, line) == 8);
    CHECK(offsetof(foringamo_record, column) == 16);
    CHECK(offsetof(foringamo_record, index) == 24);
    CHECK(sizeof(foringamo_shown) == 24);
    CHECK(offsetof(foringamo_shown, refusal) == 0);
    CHECK(offsetof(foringamo_shown, length) == 8);
    CHECK(offsetof(foringamo_shown, pieces) == 16);
}

/* As withholding sees it: with so many flags a bulletin is not refused by their count, with one fewer or more it is. */
static int takes_flags(const uint8_t *text, size_t length, size_t lines) {
    static uint8_t shown[LIMIT];
    return rust.withhold(text, length, zeros, lines, shown, sizeof shown).refusal == 0 &&
           rust.withhold(text, length, zeros, lines - 1, shown, sizeof shown).refusal == 2 &&
           rust.withhold(text, length, zeros, lines + 1, shown, sizeof shown).refusal == 2;
}

static int has_lines(const uint8_t *text, size_t length, size_t lines) {
    return foringamo_count_lines(text, length) == lines && takes_flags(text, length, lines);
}

static void count_lines(void) {
    CHECK(has_lines(NOWHERE, 0, 1));
    CHECK(has_lines(TEXT(""), 1));
    CHECK(has_lines(TEXT("a"), 1));
    CHECK(has_lines(TEXT("a\nb"), 2));
    CHECK(has_lines(TEXT("a\r\nb"), 2));
    CHECK(has_lines(TEXT("a\rb"), 2));
    CHECK(has_lines(TEXT("a\n\rb"), 3));
    CHECK(has_lines(TEXT("a\r\r\nb"), 3));
    CHECK(has_lines(TEXT("a\nb\r\nc\rd"), 4));

    /* At the end there is a last, empty line. */
    CHECK(has_lines(TEXT("\n"), 2));
    CHECK(has_lines(TEXT("\r"), 2));
    CHECK(has_lines(TEXT("\r\n"), 2));
    CHECK(has_lines(TEXT("a\n"), 2));
    CHECK(has_lines(TEXT("a\r\n"), 2));
    CHECK(has_lines(TEXT("a\r"), 2));
    CHECK(has_lines(TEXT("\n\r\n\r"), 4));

    /* Nothing else ends a line: neither form feed, line tabulation and NUL, nor U+0085 and U+2028. */
    CHECK(has_lines(TEXT("a\f\v\0b\xc2\x85\xe2\x80\xa8"), 1));
    for (int byte = 0; byte < 256; byte++) {
        uint8_t one = (uint8_t)byte;
        CHECK(has_lines(&one, 1, byte == '\n' || byte == '\r' ? 2 : 1));
    }

    /* A CR and an LF at each place of some bytes that are read eight by eight. */
    for (size_t cr = 0; cr < 40; cr++) {
        for (size_t lf = 0; lf < 40; lf++) {
            uint8_t bytes[40];
            memset(bytes, 'a', sizeof bytes);
            bytes[cr] = '\r';
            bytes[lf] = '\n';
            CHECK(has_lines(bytes, sizeof bytes, cr == lf || cr + 1 == lf ? 2 : 3));
        }
    }

    /* The longest bulletin, and above: every length is counted. */
    CHECK(has_lines(big, LIMIT, 1));
    CHECK(foringamo_count_lines(big, sizeof big) == 1);
    static uint8_t long_text[2 * LIMIT + 1];
    memset(long_text, '\n', sizeof long_text);
    CHECK(has_lines(long_text, LIMIT, LIMIT + 1));
    CHECK(foringamo_count_lines(long_text, LIMIT + 1) == LIMIT + 2);
    CHECK(foringamo_count_lines(long_text, sizeof long_text) == sizeof long_text + 1);
    memset(long_text, '\r', sizeof long_text);
    CHECK(foringamo_count_lines(long_text, sizeof long_text) == sizeof long_text + 1);
    for (size_t i = 1; i < sizeof long_text; i += 2) {
        long_text[i] = '\n';
    }
    CHECK(foringamo_count_lines(long_text, 2 * LIMIT) == LIMIT + 1);
    CHECK(foringamo_count_lines(long_text, 2 * LIMIT + 1) == LIMIT + 2);
}

static void block_scan(const reading *by) {
    CHECK(is_block(by->block_scan(big, LIMIT + 1, zeros, 1, 0), 1, 0, 0, 255, 0, 0));
    CHECK(is_block(by->block_scan(big, LIMIT + 1, wrong, 2, 7), 1, 0, 0, 255, 0, 0));
    CHECK(is_block(by->block_scan(big, LIMIT, zeros, 1, 0), 0, 0, 0, 255, 0, 0));
    CHECK(is_block(by->block_scan(TEXT("<div>"), NOWHERE, 0, 0), 2, 0, 0, 255, 0, 0));
    CHECK(is_block(by->block_scan(TEXT("<div>"), zeros, 2, 0), 2, 0, 0, 255, 0, 0));
    CHECK(is_block(by->block_scan(TEXT("<div>"), wrong, 2, 1), 2, 0, 0, 255, 0, 0));
    CHECK(is_block(by->block_scan(TEXT("<div>"), wrong, 1, 0), 3, 0, 0, 255, 0, 0));
    CHECK(is_block(by->block_scan(TEXT("<div>"), wrong, 1, 1), 3, 0, 0, 255, 0, 0));
    CHECK(is_block(by->block_scan(TEXT("<div>"), zeros, 1, 1), 4, 0, 0, 255, 0, 0));
    CHECK(is_block(by->block_scan(TEXT("<div>"), zeros, 1, 6), 4, 0, 0, 255, 0, 0));
    CHECK(is_block(by->block_scan(TEXT("<div>"), zeros, 1, SIZE_MAX), 4, 0, 0, 255, 0, 0));
    CHECK(is_block(by->block_scan(TEXT("a\r\n<div>"), zeros, 2, 2), 4, 0, 0, 255, 0, 0));

    CHECK(is_block(by->block_scan(TEXT("<pre>\n</pre>"), zeros, 2, 0), 0, 1, 1, 0, 12, 6));
    CHECK(is_block(by->block_scan(TEXT("<!-- x"), zeros, 1, 0), 0, 2, 0, 255, 6, 6));
    CHECK(is_block(by->block_scan(TEXT("<!-- x -->\n"), zeros, 2, 0), 0, 2, 1, 255, 10, 7));
    CHECK(is_block(by->block_scan(TEXT("<?x?>"), zeros, 1, 0), 0, 3, 1, 255, 5, 3));
    CHECK(is_block(by->block_scan(TEXT("<!X>"), zeros, 1, 0), 0, 4, 1, 255, 4, 3));
    CHECK(is_block(by->block_scan(TEXT("<![CDATA[]]>"), zeros, 1, 0), 0, 5, 1, 255, 12, 9));
    CHECK(is_block(by->block_scan(TEXT("<div>\nx\n\n"), zeros, 4, 0), 0, 6, 0, 15, 7, 7));
    CHECK(is_block(by->block_scan(TEXT("x\n<a>"), zeros, 2, 2), 0, 7, 0, 255, 5, 5));
    CHECK(is_block(by->block_scan(TEXT("x"), zeros, 1, 0), 0, 0, 0, 255, 0, 0));
    CHECK(is_block(by->block_scan(NOWHERE, 0, zeros, 1, 0), 0, 0, 0, 255, 0, 0));
}

/* A block of kinds 1 to 5 that begins a text. */
typedef struct {
    const char *text;
    size_t lines;
    int kind;
    int closed;
    int name;
    size_t stop;
    size_t closer;
} closer_row;

static const closer_row closer_rows[] = {
    {"<!-->", 1, 2, 1, 255, 5, 2},
    {"<!--->", 1, 2, 1, 255, 6, 3},
    {"<?>", 1, 3, 1, 255, 3, 1},
    {"<!A>>", 1, 4, 1, 255, 5, 3},
    {"<!--\n--->x-->", 2, 2, 1, 255, 13, 6},
    {"<!--\r\n--->x-->\r\ny", 3, 2, 1, 255, 14, 7},
    {"<script></style></script>", 1, 1, 1, 1, 25, 8},
    {"<pre>\r\n\r\n</TEXTAREA>", 3, 1, 1, 0, 20, 9},
    {"<![CDATA[]]]]>", 1, 5, 1, 255, 14, 11},
    {"<![CDATA[]]]>]]>", 1, 5, 1, 255, 16, 13},
    {"<![CDATA[]]]>", 1, 5, 0, 255, 13, 13},
    {"<!--\n->\n", 3, 2, 0, 255, 8, 8},
    {"<?\r\n>", 2, 3, 0, 255, 5, 5},
    {"<!A\r\n\r\n", 3, 4, 0, 255, 7, 7},
    {"<pre></pre >", 1, 1, 0, 0, 12, 12},
};

/* Each row as it stands, behind three spaces, and behind a line; and where a lazy line keeps the closer out. */
static void closers(void) {
    for (size_t i = 0; i < sizeof closer_rows / sizeof *closer_rows; i++) {
        const closer_row *row = &closer_rows[i];
        uint8_t text[40];
        for (int front = 0; front < 3; front++) {
            int length = snprintf((char *)text, sizeof text, "%s%s", front == 0 ? "" : front == 1 ? "   " : "x\r\n", row->text);
            size_t moved = front == 0 ? 0 : 3;
            size_t index = front == 2 ? moved : 0;
            size_t lines = row->lines + (front == 2);
            foringamo_block block = foringamo_block_scan(text, (size_t)length, zeros, lines, index);
            CHECK(is_block(block, 0, row->kind, row->closed, row->name, row->stop + moved, row->closer + moved));
        }
    }

    static const uint8_t lazy[] = {0, 1, 0};
    CHECK(is_block(foringamo_block_scan(TEXT("<!--\n-->"), lazy, 2, 0), 0, 2, 0, 255, 4, 4));
    CHECK(is_block(foringamo_block_scan(TEXT("<?\r\n?>"), lazy, 2, 0), 0, 3, 0, 255, 2, 2));
    CHECK(is_block(foringamo_block_scan(TEXT("<?\r\n?>"), lazy + 1, 2, 0), 0, 3, 1, 255, 6, 4));
}

/* Whether `<name>` has this kind and the name this place, also in capitals. */
static int is_named(const char *name, int kind, int place) {
    char tag[16];
    int length = snprintf(tag, sizeof tag, "<%s>", name);
    int small = is_block(foringamo_block_scan((uint8_t *)tag, (size_t)length, zeros, 1, 0), 0, kind, 0, place, (size_t)length, (size_t)length);
    for (int i = 0; i < length; i++) {
        tag[i] = (char)toupper((unsigned char)tag[i]);
    }
    return small && is_block(foringamo_block_scan((uint8_t *)tag, (size_t)length, zeros, 1, 0), 0, kind, 0, place, (size_t)length, (size_t)length);
}

enum { RAW_NAMES = 4, BLOCK_NAMES = 62 };

static const char *const raw_names[] = {FORINGAMO_RAW_NAMES};
static const char *const block_names[] = {FORINGAMO_BLOCK_NAMES};

/* The header's names stand in their places. */
static void names(void) {
    CHECK(FORINGAMO_NO_NAME == 255);
    CHECK(sizeof raw_names / sizeof raw_names[0] == RAW_NAMES);
    CHECK(sizeof block_names / sizeof block_names[0] == BLOCK_NAMES);
    for (int place = 0; place < RAW_NAMES; place++) {
        CHECK(is_named(raw_names[place], 1, place));
    }
    for (int place = 0; place < BLOCK_NAMES; place++) {
        CHECK(is_named(block_names[place], 6, place));
    }
    CHECK(is_named("b", 7, 255));
}

/* The place of a name in a list, with a look at each of its names. */
static int place_in(const char *const *list, int count, const char *name) {
    for (int place = 0; place < count; place++) {
        if (strcmp(list[place], name) == 0) {
            return place;
        }
    }
    return FORINGAMO_NO_NAME;
}

/* Whether a tag of this name, but for its first byte, has the kind and the place that a look at each name gives. What is no letter begins no name. */
static int is_looked_up(const char *name, int first) {
    char tag[16], small[16];
    int length = snprintf(tag, sizeof tag, "<%s>", name);
    snprintf(small, sizeof small, "%s", name);
    tag[1] = (char)first;
    small[0] = (char)tolower(first);
    int raw = isalpha(first) ? place_in(raw_names, RAW_NAMES, small) : FORINGAMO_NO_NAME;
    int basic = isalpha(first) ? place_in(block_names, BLOCK_NAMES, small) : FORINGAMO_NO_NAME;
    foringamo_block block = foringamo_block_scan((uint8_t *)tag, (size_t)length, zeros, 1, 0);
    if (raw != FORINGAMO_NO_NAME) {
        return block.kind == 1 && block.name == raw;
    }
    if (basic != FORINGAMO_NO_NAME) {
        return block.kind == 6 && block.name == basic;
    }
    return block.kind != 1 && block.kind != 6 && block.name == FORINGAMO_NO_NAME;
}

/* Every byte in place of the first of each name. Behind LF and CR there is another line, with a flag of its own, and behind `/` the name begins. */
static void first_bytes(void) {
    for (int first = 0; first < 256; first++) {
        if (first == '\n' || first == '\r' || first == '/') {
            continue;
        }
        int good = 1;
        for (int place = 0; place < RAW_NAMES; place++) {
            good &= is_looked_up(raw_names[place], first);
        }
        for (int place = 0; place < BLOCK_NAMES; place++) {
            good &= is_looked_up(block_names[place], first);
        }
        CHECK(good);
    }
}

static void inline_scan(const reading *by) {
    CHECK(is_inline(by->inline_scan(big, LIMIT + 1, 0, 3), 1, 0, 3, 0));
    CHECK(is_inline(by->inline_scan(big, LIMIT + 1, LIMIT + 2, 9), 1, 0, 9, 0));
    CHECK(is_inline(by->inline_scan(TEXT("<b>"), 4, 3), 4, 0, 3, 0));
    CHECK(is_inline(by->inline_scan(TEXT("<b>"), SIZE_MAX, 9), 4, 0, 9, 0));
    CHECK(is_inline(by->inline_scan(TEXT("<b>"), 0, 6), 5, 0, 6, 0));
    CHECK(is_inline(by->inline_scan(TEXT("a\n\nb"), 0, 255), 5, 0, 255, 0));
    CHECK(is_inline(by->inline_scan(TEXT("a\n \t\nb"), 0, 2), 6, 0, 2, 0));
    for (int carry = 0; carry <= 5; carry++) {
        CHECK(is_inline(by->inline_scan(TEXT("<b>\r\r"), 0, (uint8_t)carry), 6, 0, carry, 0));
        CHECK(is_inline(by->inline_scan(TEXT("<b>"), 0, (uint8_t)carry), 0, 1, carry, 3));
        CHECK(is_inline(by->inline_scan(TEXT("<b>"), 3, (uint8_t)carry), 0, 0, carry, 0));
    }
    CHECK(is_inline(by->inline_scan(NOWHERE, 0, 0, 1), 0, 0, 1, 0));
}

static void block_trace(void) {
    REFUSES_WRITTEN(1, foringamo_block_trace(big, LIMIT + 1, zeros, 1, 0, out, ROOM));
    REFUSES_WRITTEN(1, foringamo_block_trace(big, LIMIT + 1, wrong, 2, 7, out, 0));
    REFUSES_WRITTEN(2, foringamo_block_trace(TEXT("<div>"), zeros, 2, 0, out, ROOM));
    REFUSES_WRITTEN(3, foringamo_block_trace(TEXT("<div>"), wrong, 1, 0, out, ROOM));
    REFUSES_WRITTEN(4, foringamo_block_trace(TEXT("<div>"), zeros, 1, 1, out, ROOM));
    REFUSES_WRITTEN(4, foringamo_block_trace(TEXT("<div>"), zeros, 1, 1, out, 0));
    REFUSES_WRITTEN(7, foringamo_block_trace(TEXT("<div>"), zeros, 1, 0, NOWHERE, 0));

    const uint8_t div[] = {
        1, 1, 0, 0, 0, 1, 0, 0, 0, 0, 0, 0, 0, 0,
        3, 1, 0, 0, 0, 1, 0, 0, 0, 0, 0, 0, 0, 0,
        4, 1, 0, 0, 0, 6, 0, 0, 0, 5, 0, 0, 0, 0,
        2, 1, 0, 0, 0, 6, 0, 0, 0, 5, 0, 0, 0, 0,
        14, 5, 0, 0, 0, 6,
    };
    for (size_t room = 0; room <= ROOM; room++) {
        fill();
        foringamo_trace r = foringamo_block_trace(TEXT("<div>"), zeros, 1, 0, out, room);
        if (room < sizeof div) {
            CHECK(is_written(r, 7, 0) && kept_from(0));
        } else {
            CHECK(is_written(r, 0, sizeof div) && has(div, sizeof div));
        }
    }

    const uint8_t none[] = {14, 2, 0, 0, 0, 0};
    fill();
    CHECK(is_written(foringamo_block_trace(TEXT("<\nx"), zeros, 2, 2, out, ROOM), 0, LAST) && has(none, LAST));
    REFUSES_WRITTEN(7, foringamo_block_trace(TEXT("<\nx"), zeros, 2, 2, out, LAST - 1));
}

/* docs/SCOPE.md, Traces: that of `<b>`. */
static const uint8_t b[] = {
    0x07, 0x01, 0x00, 0x00, 0x00, 0x01, 0x00, 0x00, 0x00, 0x00, 0x00, 0x00, 0x00, 0x00,
    0x09, 0x01, 0x00, 0x00, 0x00, 0x01, 0x00, 0x00, 0x00, 0x00, 0x00, 0x00, 0x00, 0x00,
    0x0a, 0x01, 0x00, 0x00, 0x00, 0x04, 0x00, 0x00, 0x00, 0x03, 0x00, 0x00, 0x00, 0x00,
    0x08, 0x01, 0x00, 0x00, 0x00, 0x04, 0x00, 0x00, 0x00, 0x03, 0x00, 0x00, 0x00, 0x00,
    0x0d, 0x03, 0x00, 0x00, 0x00, 0x00,
};

static void inline_trace(void) {
    REFUSES_WRITTEN(1, foringamo_inline_trace(big, LIMIT + 1, 0, 0, out, ROOM));
    REFUSES_WRITTEN(1, foringamo_inline_trace(big, LIMIT + 1, LIMIT + 2, 9, out, 0));
    REFUSES_WRITTEN(4, foringamo_inline_trace(TEXT("<b>"), 4, 0, out, ROOM));
    REFUSES_WRITTEN(5, foringamo_inline_trace(TEXT("<b>"), 0, 6, out, ROOM));
    REFUSES_WRITTEN(6, foringamo_inline_trace(TEXT("<b>\n\nx"), 0, 0, out, ROOM));
    REFUSES_WRITTEN(6, foringamo_inline_trace(TEXT("<b>\n\nx"), 0, 0, out, 0));
    REFUSES_WRITTEN(7, foringamo_inline_trace(TEXT("<b>"), 0, 0, NOWHERE, 0));

    for (size_t room = 0; room <= ROOM; room++) {
        fill();
        foringamo_trace r = foringamo_inline_trace(TEXT("<b>"), 0, 0, out, room);
        if (room < sizeof b) {
            CHECK(is_written(r, 7, 0) && kept_from(0));
        } else {
            CHECK(is_written(r, 0, sizeof b) && has(b, sizeof b));
        }
    }

    const uint8_t none[] = {13, 1, 0, 0, 0, 5};
    fill();
    CHECK(is_written(foringamo_inline_trace(TEXT("<b>"), 1, 5, out, ROOM), 0, LAST) && has(none, LAST));
    REFUSES_WRITTEN(7, foringamo_inline_trace(TEXT("<b>"), 1, 5, out, LAST - 1));
}

static void read_trace(void) {
    CHECK(is_record(foringamo_read_trace(b, sizeof b, 0), 0, 7, 0, 1, 1, 0));
    CHECK(is_record(foringamo_read_trace(b, sizeof b, 1), 0, 9, 0, 1, 1, 0));
    CHECK(is_record(foringamo_read_trace(b, sizeof b, 2), 0, 10, 0, 1, 4, 3));
    CHECK(is_record(foringamo_read_trace(b, sizeof b, 3), 0, 8, 0, 1, 4, 3));
    CHECK(is_record(foringamo_read_trace(b, sizeof b, 4), 0, 13, 0, 0, 0, 3));
    CHECK(is_record(foringamo_read_trace(b, sizeof b, 5), 9, 0, 0, 0, 0, 0));
    CHECK(is_record(foringamo_read_trace(b, sizeof b, SIZE_MAX), 9, 0, 0, 0, 0, 0));

    const uint8_t event[] = {12, 4, 3, 2, 1, 8, 7, 6, 5, 12, 11, 10, 9, 13};
    CHECK(is_record(foringamo_read_trace(event, sizeof event, 0), 0, 12, 13, 0x01020304, 0x05060708, 0x090a0b0c));
    const uint8_t last[] = {14, 4, 3, 2, 1, 5};
    CHECK(is_record(foringamo_read_trace(last, sizeof last, 0), 0, 14, 5, 0, 0, 0x01020304));
    const uint8_t greatest[] = {11, 255, 255, 255, 255, 255, 255, 255, 255, 255, 255, 255, 255, 255};
    CHECK(is_record(foringamo_read_trace(greatest, sizeof greatest, 0), 0, 11, 255, UINT32_MAX, UINT32_MAX, UINT32_MAX));
    CHECK(is_record(foringamo_read_trace(NOWHERE, 0, 0), 9, 0, 0, 0, 0, 0));
    for (size_t length = 0; length < sizeof event; length++) {
        CHECK(is_record(foringamo_read_trace(event, length, 0), 9, 0, 0, 0, 0, 0));
    }
    for (size_t length = 0; length < sizeof last; length++) {
        CHECK(is_record(foringamo_read_trace(last, length, 0), 9, 0, 0, 0, 0, 0));
    }

    /* Every kind byte, with a whole record behind it. */
    for (int kind = 0; kind < 256; kind++) {
        uint8_t bytes[EVENT] = {0, 1, 0, 0, 0, 2, 0, 0, 0, 3, 0, 0, 0, 4};
        bytes[0] = (uint8_t)kind;
        foringamo_record r = foringamo_read_trace(bytes, sizeof bytes, 0);
        if (kind == 0 || kind > 14) {
            CHECK(is_record(r, 8, 0, 0, 0, 0, 0));
        } else if (kind <= 12) {
            CHECK(is_record(r, 0, kind, 4, 1, 2, 3));
        } else {
            CHECK(is_record(r, 0, kind, 2, 0, 0, 1));
        }
    }

    /* The first bad record on the way decides; later ones are not looked at. */
    const uint8_t bad[] = {13, 0, 0, 0, 0, 0, 0, 13, 0};
    CHECK(is_record(foringamo_read_trace(bad, sizeof bad, 0), 0, 13, 0, 0, 0, 0));
    CHECK(is_record(foringamo_read_trace(bad, sizeof bad, 1), 8, 0, 0, 0, 0, 0));
    CHECK(is_record(foringamo_read_trace(bad, sizeof bad, 2), 8, 0, 0, 0, 0, 0));
    const uint8_t cut[] = {13, 0, 0, 0, 0, 0, 13, 0};
    CHECK(is_record(foringamo_read_trace(cut, sizeof cut, 0), 0, 13, 0, 0, 0, 0));
    CHECK(is_record(foringamo_read_trace(cut, sizeof cut, 1), 9, 0, 0, 0, 0, 0));
    CHECK(is_record(foringamo_read_trace(cut, sizeof cut, 2), 9, 0, 0, 0, 0, 0));
}

static void withhold(const reading *by) {
    REFUSES_SHOWN(1, by->withhold(big, LIMIT + 1, zeros, 1, out, ROOM));
    REFUSES_SHOWN(1, by->withhold(big, LIMIT + 1, wrong, 2, out, 0));
    REFUSES_SHOWN(2, by->withhold(TEXT("a\nb"), zeros, 3, out, ROOM));
    REFUSES_SHOWN(2, by->withhold(TEXT("a"), wrong, 2, out, 0));
    REFUSES_SHOWN(2, by->withhold(NOWHERE, 0, NOWHERE, 0, out, ROOM));
    REFUSES_SHOWN(3, by->withhold(TEXT("a\nb"), wrong, 2, out, ROOM));
    REFUSES_SHOWN(3, by->withhold(TEXT("a\nb"), wrong, 2, out, 0));
    REFUSES_SHOWN(7, by->withhold(TEXT("a"), zeros, 1, NOWHERE, 0));
    REFUSES_SHOWN(7, by->withhold(big, LIMIT, zeros, 1, out, ROOM));

    /* docs/SCOPE.md, The added screen. */
    const char shown[] = "door 9\n\n\nok";
    for (size_t room = 0; room <= ROOM; room++) {
        fill();
        foringamo_shown r = by->withhold(TEXT("door <!-- x -->9\n<div>\nold\n\nok"), zeros, 5, out, room);
        if (room < sizeof shown - 1) {
            CHECK(is_shown(r, 7, 0, 0) && kept_from(0));
        } else {
            CHECK(is_shown(r, 0, sizeof shown - 1, 2) && has(TEXT(shown)));
        }
    }

    fill();
    CHECK(is_shown(by->withhold(NOWHERE, 0, zeros, 1, out, ROOM), 0, 0, 0) && kept_from(0));
    CHECK(is_shown(by->withhold(TEXT("<!-- x -->"), zeros, 1, NOWHERE, 0), 0, 0, 1));
}

/* A bulletin of one line with its flag, and the block that each reading finds there. */
typedef struct {
    const char *text;
    uint8_t flag;
    foringamo_block rust;
    foringamo_block standard;
} parting_row;

#define NO_BLOCK {0, 0, 0, 255, 0, 0}
#define COMPLETE(stop) {0, 7, 0, 255, stop, stop}

static const parting_row parting_rows[] = {
    /* F1: whether a closer is met, and where the earliest one is. */
    {"<![CDATA[]]]>", 0, {0, 5, 0, 255, 13, 13}, {0, 5, 1, 255, 13, 10}},
    {"<![CDATA[]]]>]]>", 0, {0, 5, 1, 255, 16, 13}, {0, 5, 1, 255, 16, 10}},
    /* F2 to F5. */
    {"<a 1b>", 0, COMPLETE(6), NO_BLOCK},
    {"<pre/>", 0, COMPLETE(6), NO_BLOCK},
    {"<a b=c/d>", 0, NO_BLOCK, COMPLETE(9)},
    {"<a b=/c>", 0, NO_BLOCK, COMPLETE(8)},
    {"<a b=c=d>", 0, COMPLETE(9), NO_BLOCK},
    /* F6, and the other flags. */
    {"<a>", 0, COMPLETE(3), COMPLETE(3)},
    {"<a>", 1, COMPLETE(3), COMPLETE(3)},
    {"<a>", 2, NO_BLOCK, NO_BLOCK},
    {"<a>", 3, COMPLETE(3), NO_BLOCK},
    /* What the two have alike. */
    {"</pre>", 0, COMPLETE(6), COMPLETE(6)},
    {"<a b=/>", 0, COMPLETE(7), COMPLETE(7)},
    {"<![CDATA[]]]]>", 0, {0, 5, 1, 255, 14, 11}, {0, 5, 1, 255, 14, 11}},
};

static int same_block(foringamo_block a, foringamo_block b) {
    return is_block(a, b.refusal, b.kind, b.closed, b.name, b.stop, b.closer);
}

static int same_inline(foringamo_inline a, foringamo_inline b) {
    return is_inline(a, b.refusal, b.found, b.carry, b.stop);
}

static void partings(void) {
    for (size_t i = 0; i < sizeof parting_rows / sizeof *parting_rows; i++) {
        const parting_row *row = &parting_rows[i];
        const uint8_t *text = (const uint8_t *)row->text;
        CHECK(same_block(foringamo_block_scan(text, strlen(row->text), &row->flag, 1, 0), row->rust));
        CHECK(same_block(foringamo_standard_block_scan(text, strlen(row->text), &row->flag, 1, 0), row->standard));
    }

    /* T1. */
    CHECK(is_inline(foringamo_inline_scan(TEXT("<a b=c/d>"), 0, 0), 0, 0, 0, 0));
    CHECK(is_inline(foringamo_standard_inline_scan(TEXT("<a b=c/d>"), 0, 0), 0, 1, 0, 9));

    /* T2: the carry is read and changed. */
    CHECK(is_inline(foringamo_inline_scan(TEXT("<![CDx"), 0, 0), 0, 0, 2, 0));
    CHECK(is_inline(foringamo_inline_scan(TEXT("<![ATA[q]]>"), 0, 2), 0, 1, 0, 11));
    CHECK(is_inline(foringamo_inline_scan(TEXT("<![CDATA[q]]>"), 0, 2), 0, 0, 2, 0));

    /* By the standard it is neither. */
    for (uint8_t carry = 0; carry <= 5; carry++) {
        CHECK(is_inline(foringamo_standard_inline_scan(TEXT("<!["), 0, carry), 0, 0, carry, 0));
        CHECK(is_inline(foringamo_standard_inline_scan(TEXT("<![CDx"), 0, carry), 0, 0, carry, 0));
        CHECK(is_inline(foringamo_standard_inline_scan(TEXT("<![CDATA["), 0, carry), 0, 0, carry, 0));
        CHECK(is_inline(foringamo_standard_inline_scan(TEXT("<![CDATA[q]]>"), 0, carry), 0, 1, carry, 13));
        CHECK(is_inline(foringamo_standard_inline_scan(TEXT("<![ATA[q]]>"), 0, carry), 0, 0, carry, 0));
        CHECK(is_inline(foringamo_standard_inline_scan(TEXT("<![[q]]>"), 0, carry), 0, 0, carry, 0));
    }
}

/* A bulletin, all flags 0, and what each reading shows of it. */
typedef struct {
    const char *text;
    const char *rust;
    const char *standard;
} showing_row;

/* README, The two readings. */
static const showing_row showing_rows[] = {
    {"a <b c=d/e>", "a <b c=d/e>", "a "},
    {"<i 1>", "", "<i 1>"},
    {"<pre/>\nx", "", "\nx"},
    {"<i b=c/d>\nx", "<i b=c/d>\nx", ""},
    {"<i b=c=d>", "", "<i b=c=d>"},
    {"<![CDATA[]]]>\nx", "", "\nx"},
    {"door <![CDx 9 <![CDATA[old 7]]> ok", "door <![CDx 9  ok", "door <![CDx 9  ok"},
};

static int shows(const reading *by, const char *text, const char *shown) {
    const uint8_t *bulletin = (const uint8_t *)text;
    fill();
    foringamo_shown r = by->withhold(bulletin, strlen(text), zeros, foringamo_count_lines(bulletin, strlen(text)), out, ROOM);
    return r.refusal == 0 && r.length == strlen(shown) && has((const uint8_t *)shown, r.length);
}

static void showings(void) {
    for (size_t i = 0; i < sizeof showing_rows / sizeof *showing_rows; i++) {
        CHECK(shows(&rust, showing_rows[i].text, showing_rows[i].rust));
        CHECK(shows(&standard, showing_rows[i].text, showing_rows[i].standard));
    }
}

/* Whether a bulletin of a front, so many backslashes and a piece is shown without the piece, or behind an odd number whole. */
static int shows_behind(const reading *by, const char *front, const char *front_shown, int backslashes, const char *piece) {
    char text[ROOM], shown[ROOM];
    snprintf(text, sizeof text, "%s%.*s%s.", front, backslashes, "\\\\\\\\\\", piece);
    snprintf(shown, sizeof shown, "%s%.*s%s.", front_shown, backslashes, "\\\\\\\\\\", backslashes % 2 == 1 ? piece : "");
    return shows(by, text, shown);
}

/* README, What it does not know; docs/SCOPE.md, Backslash before a tag. */
static void backslashes(const reading *by) {
    /* Where a run begins, and what is shown of it: a paragraph's start, or a piece. */
    static const char *const fronts[][2] = {{"", ""}, {"a ", "a "}, {"a\n\n", "a\n\n"}, {"a\r", "a\r"}, {"a\r\n", "a\r\n"}, {"a\n", "a\n"}, {"a <i>", "a "}, {"a \\x", "a \\x"}};
    static const char *const inlines[] = {"<b>", "</b>", "<!-- x -->", "<![CDATA[x]]>", "<?x?>", "<!A x>"};
    for (size_t front = 0; front < sizeof fronts / sizeof *fronts; front++) {
        for (size_t piece = 0; piece < sizeof inlines / sizeof *inlines; piece++) {
            /* Without a backslash some of them open a block at a line's start. */
            for (int run = 1; run <= 5; run++) {
                CHECK(shows_behind(by, fronts[front][0], fronts[front][1], run, inlines[piece]));
            }
        }
    }
    CHECK(shows(by, "a \\<b>c", "a \\<b>c"));
    CHECK(shows(by, "a \\ <b>c", "a \\ c"));
    CHECK(shows(by, "a \\\n<b>c", "a \\\nc"));
    CHECK(shows(by, "a /<b>c", "a /c"));
    CHECK(shows(by, "a \\<b <i>c", "a \\<b c"));

    /* Block openings are untouched, and in a block a backslash means nothing. */
    CHECK(shows(by, "a\\\n<div>\nx", "a\\\n"));
    CHECK(shows(by, "<div>\\<b>\n\nx", "\n\nx"));
    CHECK(shows(by, "\\<div>\nx", "\\<div>\nx"));

    /* Bulletins that differ in a private piece: it ends in a backslash, or stands behind one in a quoted value. */
    CHECK(shows(by, "a <!--x\\--><b>c", "a c") && shows(by, "a <!--yz--><b>c", "a c"));
    CHECK(shows(by, "a <b c=\"\\<!--x\\-->\">d", "a d") && shows(by, "a <b c=\"\\<!--yz-->\">d", "a d"));
}

/* The longest run that a bulletin with a tag can have, and one byte less. */
static void longest_runs(const reading *by) {
    enum { BEHIND = 4, LONGEST = LIMIT - BEHIND };
    static uint8_t text[LIMIT], shown[LIMIT];
    memset(text, '\\', sizeof text);
    memcpy(text + LONGEST, "<b>x", BEHIND);
    for (size_t run = LONGEST - 1; run <= LONGEST; run++) {
        const uint8_t *bulletin = text + (LONGEST - run);
        size_t length = run + BEHIND;
        foringamo_shown r = by->withhold(bulletin, length, zeros, 1, shown, sizeof shown);
        if (run % 2 == 1) {
            CHECK(is_shown(r, 0, length, 0) && memcmp(shown, bulletin, length) == 0);
        } else {
            CHECK(is_shown(r, 0, run + 1, 1) && memcmp(shown, bulletin, run) == 0 && shown[run] == 'x');
        }
    }
}

/* The places where the two readings may part: docs/SCOPE.md, The book's own reading. */
enum { BOTH_FIVE, ONE_SEVEN, STANDARD_TAG, AT_CDATA, PLACES };

/* Notes the place where two answers part; 0 where it is none of those. */
static int block_listed(foringamo_block a, foringamo_block b, size_t *parted) {
    int one_seven = (a.kind == 7 && b.kind == 0) || (a.kind == 0 && b.kind == 7);
    int both_five = a.kind == 5 && b.kind == 5;
    if (same_block(a, b)) {
        return 1;
    }
    parted[both_five ? BOTH_FIVE : ONE_SEVEN]++;
    return both_five || one_seven;
}

static int inline_listed(const uint8_t *from, foringamo_inline a, foringamo_inline b, size_t *parted) {
    if (same_inline(a, b)) {
        return 1;
    }
    int at_cdata = from[1] == '!' && from[2] == '[';
    parted[at_cdata ? AT_CDATA : STANDARD_TAG]++;
    return at_cdata || (a.found == 0 && b.found == 1 && a.carry == b.carry && ((from[1] | 32) >= 'a' && (from[1] | 32) <= 'z'));
}

/* Pseudo-random bulletins: withholding by the standard is by its scans, and where these part from the other reading's it is at one of those places. */
static void readings_part(void) {
    static uint8_t marks[SHORT];
    size_t parted[PLACES] = {0};
    for (int round = 0; round < 5000; round++) {
        screen_case row = random_bulletin();
        uint8_t carry = (uint8_t)below(6);
        size_t index = 0;
        mark_pieces(&standard, &row, marks);
        int good = withholds(&standard, &row, marks);
        for (size_t line = 0; line < row.lines; line++) {
            good &= block_listed(block_at(&rust, &row, index), block_at(&standard, &row, index), parted);
            index = next_line(&row, line_stop(&row, index));
        }
        for (size_t i = 0; i + 2 < row.length; i++) {
            if (row.bulletin[i] == '<') {
                foringamo_inline a = foringamo_inline_scan(row.bulletin, row.length, i, carry);
                good &= inline_listed(row.bulletin + i, a, foringamo_standard_inline_scan(row.bulletin, row.length, i, carry), parted);
            }
        }
        CHECK(good);
    }
    for (int place = 0; place < PLACES; place++) {
        CHECK(parted[place] >= 20);
    }
}

int main(void) {
    memset(big, 'a', sizeof big);
    layout();
    count_lines();
    block_scan(&rust);
    block_scan(&standard);
    closers();
    names();
    first_bytes();
    inline_scan(&rust);
    inline_scan(&standard);
    block_trace();
    inline_trace();
    read_trace();
    withhold(&rust);
    withhold(&standard);
    partings();
    showings();
    backslashes(&rust);
    backslashes(&standard);
    longest_runs(&rust);
    longest_runs(&standard);
    readings_part();
    return finish();
}
