/*
 * Long bulletins: the limit through every function, numbers above 65,535 in answers and traces, the longest traces, and what the header says of room for a trace and
 * of lines that open a block. tests/interface.sh builds and runs it. A line for each check that fails; the last line is 'N passed, M failed'.
 */
#include "bulletins.h"

/* The greatest number of two bytes; a number above it; and so many tabs that the column behind them is above it, but not the index. */
enum { NARROW = 65535, FAR = 70000, TABS = 20000 };

/* The kinds of a trace's records: the enters, to which an exit is one more, and the last records. */
enum { HTML_FLOW = 1, HTML_FLOW_DATA = 3, LINE_ENDING = 5, HTML_TEXT = 7, HTML_TEXT_DATA = 9, SPACE_OR_TAB = 11, EXIT = 1, LAST_TEXT = 13, LAST_FLOW = 14 };

/* Kinds of blocks, the place of the name `div`, and a carry, which comes back as it was passed. */
enum { COMMENT = 2, INSTRUCTION = 3, BASIC = 6, DIV = 15, CARRY = 4 };

/* The buffer that is lent: the longest trace, and some bytes past that. */
enum { LONGEST = 2 * LIMIT * EVENT + LAST, PAST = EVENT };
static uint8_t lent[LONGEST + PAST];

static void fill_lent(size_t room) {
    memset(lent, FILL, room + PAST);
}

/* Whether the buffer with so much room is as before, from an index on. */
static int lent_kept(size_t from, size_t room) {
    return kept(lent + from, room + PAST - from);
}

/* Makes the text in hand, `big`, of a front, a part so many times, and a back; gives its length. */
static size_t make(const char *front, const char *part, size_t times, const char *back) {
    return (size_t)(repeat(repeat(repeat(big, front, 1), part, times), back, 1) - big);
}

/* The same of so many bytes, where the part is a byte. */
static void make_long(size_t length, const char *front, const char *part, const char *back) {
    make(front, part, length - strlen(front) - strlen(back), back);
}

/* ---- the limit: a text up to it is taken; one above is refused by 1, with no byte written and nothing counted */

/* Lines are counted of every length. */
static void counts_lines(size_t length) {
    make_long(length, "", "\n", "");
    CHECK(foringamo_count_lines(big, length) == length + 1);
    make_long(length, "", "a", "");
    CHECK(foringamo_count_lines(big, length) == 1);
}

/* The scans of a text that is one piece. */
static void scans(const reading *by, size_t length) {
    make_long(length, "<?", "a", "?>");
    foringamo_block block = by->block_scan(big, length, zeros, 1, 0);
    foringamo_inline piece = by->inline_scan(big, length, 0, CARRY);
    if (length <= LIMIT) {
        CHECK(is_block(block, 0, INSTRUCTION, 1, FORINGAMO_NO_NAME, length, length - 2));
        CHECK(is_inline(piece, 0, 1, CARRY, length));
    } else {
        CHECK(is_block(block, 1, 0, 0, FORINGAMO_NO_NAME, 0, 0));
        CHECK(is_inline(piece, 1, 0, CARRY, 0));
    }
}

static foringamo_shown withhold_in(const reading *by, size_t length, size_t room) {
    fill_lent(room);
    return by->withhold(big, length, zeros, 1, lent, room);
}

/* Withholding from a bulletin that has a tag at its end: with the room that always suffices, with as much as is needed, and with one byte less. */
static void withholds_at(const reading *by, size_t length) {
    static const char tag[] = "<b>";
    size_t shown = length - strlen(tag);
    make_long(length, "", "a", tag);
    if (length > LIMIT) {
        CHECK(is_shown(withhold_in(by, length, length), 1, 0, 0) && lent_kept(0, length));
        return;
    }
    CHECK(is_shown(withhold_in(by, length, length), 0, shown, 1) && memcmp(lent, big, shown) == 0 && lent_kept(shown, length));
    CHECK(is_shown(withhold_in(by, length, shown), 0, shown, 1) && memcmp(lent, big, shown) == 0 && lent_kept(shown, shown));
    CHECK(is_shown(withhold_in(by, length, shown - 1), 7, 0, 0) && lent_kept(0, shown - 1));
}

static foringamo_written filter_in(size_t length, size_t room) {
    fill_lent(room);
    return foringamo_filter(big, length, zeros, 1, lent, room);
}

/* The filter in the same rooms, of a bulletin that has a tag at its end. */
static void filters_at(size_t length) {
    static const char tag[] = "<xmp>", written[] = "&lt;xmp>";
    size_t front = length - strlen(tag), shown = front + strlen(written), most = length * 8 / 5;
    make_long(length, "", "a", tag);
    if (length > LIMIT) {
        CHECK(is_written(filter_in(length, most), 1, 0) && lent_kept(0, most));
        return;
    }
    CHECK(is_written(filter_in(length, most), 0, shown) && lent_kept(shown, most));
    CHECK(memcmp(lent, big, front) == 0 && memcmp(lent + front, written, strlen(written)) == 0);
    CHECK(is_written(filter_in(length, shown), 0, shown) && lent_kept(shown, shown));
    CHECK(memcmp(lent, big, front) == 0 && memcmp(lent + front, written, strlen(written)) == 0);
    CHECK(is_written(filter_in(length, shown - 1), 7, 0) && lent_kept(0, shown - 1));
}

/* ---- records, read in two ways */

/* Where an event stands. */
typedef struct {
    size_t line;
    size_t column;
    size_t index;
} place;

/* A record: its kind, its last byte, and where it stands; of a last record the index is the stop. */
typedef struct {
    int kind;
    int last;
    place at;
} row;

static int is_row(foringamo_record r, row expected) {
    return is_record(r, 0, expected.kind, expected.last, expected.at.line, expected.at.column, expected.at.index);
}

static int is_last(int kind) {
    return kind > SPACE_OR_TAB + EXIT;
}

/* The number in four bytes, low first. */
static size_t four(const uint8_t *bytes) {
    return (size_t)bytes[0] | (size_t)bytes[1] << 8 | (size_t)bytes[2] << 16 | (size_t)bytes[3] << 24;
}

/* The record in some bytes, and how many it has: as the header says. */
static foringamo_record record_in(const uint8_t *bytes) {
    foringamo_record event = {0, bytes[0], bytes[13], four(bytes + 1), four(bytes + 5), four(bytes + 9)};
    foringamo_record last = {0, bytes[0], bytes[5], 0, 0, four(bytes + 1)};
    return is_last(bytes[0]) ? last : event;
}

static size_t length_of(int kind) {
    return is_last(kind) ? LAST : EVENT;
}

/* Whether the trace that was lent has this record as its number says, by its bytes and by foringamo_read_trace. All records before it are events. */
static int has_row(size_t length, size_t number, row expected) {
    size_t at = number * EVENT;
    return at + length_of(expected.kind) <= length && is_row(record_in(lent + at), expected) && is_row(foringamo_read_trace(lent, length, number), expected);
}

/* The length of the trace of a piece within a line, and whether this is one, of a piece between two places. The kind of its first record tells the others. */
enum { WITHIN = 4 * EVENT + LAST };

static int is_within(foringamo_trace r, int enter, place from, place to, int last) {
    int data = enter + HTML_FLOW_DATA - HTML_FLOW, last_kind = enter == HTML_FLOW ? LAST_FLOW : LAST_TEXT;
    const row rows[] = {{enter, 0, from}, {data, 0, from}, {data + EXIT, 0, to}, {enter + EXIT, 0, to}, {last_kind, last, {0, 0, to.index}}};
    size_t count = sizeof rows / sizeof *rows;
    int good = is_written(r, 0, WITHIN) && lent_kept(WITHIN, WITHIN);
    for (size_t number = 0; number < count; number++) {
        good = good && has_row(WITHIN, number, rows[number]);
    }
    return good && is_record(foringamo_read_trace(lent, WITHIN, count), 9, 0, 0, 0, 0, 0);
}

/* Whether the trace is such a one, of the block and of the inline piece at the first place. */
static int traces_block(size_t length, size_t lines, place from, place to, int kind) {
    fill_lent(WITHIN);
    return is_within(foringamo_block_trace(big, length, zeros, lines, from.index, lent, WITHIN), HTML_FLOW, from, to, kind);
}

static int traces_inline(size_t length, place from, place to) {
    fill_lent(WITHIN);
    return is_within(foringamo_inline_trace(big, length, from.index, CARRY, lent, WITHIN), HTML_TEXT, from, to, CARRY);
}

/* ---- the limit, with the traces: of a text that is one piece; where they are refused, in all the room that a trace can need */

static void traces_at(size_t length) {
    place from = {1, 1, 0}, to = {1, length + 1, length};
    make_long(length, "<?", "a", "?>");
    if (length <= LIMIT) {
        CHECK(traces_block(length, 1, from, to, INSTRUCTION));
        CHECK(traces_inline(length, from, to));
        return;
    }
    fill_lent(LONGEST);
    CHECK(is_written(foringamo_block_trace(big, length, zeros, 1, 0, lent, LONGEST), 1, 0));
    CHECK(is_written(foringamo_inline_trace(big, length, 0, CARRY, lent, LONGEST), 1, 0));
    CHECK(lent_kept(0, LONGEST));
}

static void limit(void) {
    for (size_t length = LIMIT - 1; length <= LIMIT + 1; length++) {
        counts_lines(length);
        scans(&rust, length);
        scans(&standard, length);
        withholds_at(&rust, length);
        withholds_at(&standard, length);
        filters_at(length);
        traces_at(length);
    }
}

/* ---- numbers above 65,535 */

/* Whether every function that takes flags gives this refusal, or none, of as many line endings as there can be; the index is that of the last line. */
static int all_give(int refusal, const uint8_t *flags, size_t count) {
    make_long(LIMIT, "", "\n", "");
    fill_lent(LIMIT);
    return foringamo_block_scan(big, LIMIT, flags, count, LIMIT).refusal == refusal &&
           foringamo_standard_block_scan(big, LIMIT, flags, count, LIMIT).refusal == refusal &&
           foringamo_block_trace(big, LIMIT, flags, count, LIMIT, lent, LIMIT).refusal == refusal &&
           rust.withhold(big, LIMIT, flags, count, lent, LIMIT).refusal == refusal &&
           standard.withhold(big, LIMIT, flags, count, lent, LIMIT).refusal == refusal &&
           foringamo_filter(big, LIMIT, flags, count, lent, LIMIT).refusal == refusal && lent_kept(refusal == 0 ? LIMIT : 0, LIMIT);
}

/* A flag for each line, of which the last is looked at too, and an index for each. */
static void many_lines(void) {
    static uint8_t flags[LIMIT + 2];
    flags[LIMIT] = 3;
    CHECK(all_give(0, flags, LIMIT + 1));
    CHECK(all_give(2, flags, LIMIT));
    CHECK(all_give(2, flags, LIMIT + 2));
    CHECK(all_give(2, flags, LIMIT - NARROW));
    flags[LIMIT] = 4;
    CHECK(all_give(3, flags, LIMIT + 1));
    CHECK(is_block(foringamo_block_scan(big, LIMIT, zeros, LIMIT + 1, LIMIT + 1), 4, 0, 0, FORINGAMO_NO_NAME, 0, 0));
}

/* A block far behind: its line, index and stop. */
static void far_block(const reading *by) {
    place from = {FAR + 1, 1, FAR}, to = {FAR + 1, 6, FAR + 5};
    size_t length = make("", "\n", FAR, "<div>");
    CHECK(is_block(by->block_scan(big, length, zeros, FAR + 1, FAR), 0, BASIC, 0, DIV, FAR + 5, FAR + 5));
    CHECK(traces_block(length, FAR + 1, from, to, BASIC));
    length = make("", "a", FAR, "\n<div>");
    CHECK(is_block(by->block_scan(big, length, zeros, 2, FAR + 1), 0, BASIC, 0, DIV, FAR + 6, FAR + 6));
    CHECK(is_block(by->block_scan(big, length, zeros, 2, FAR), 4, 0, 0, FORINGAMO_NO_NAME, 0, 0));
}

/* An inline piece far behind. */
static void far_inline(const reading *by) {
    place from = {FAR + 1, 1, 2 * FAR}, to = {FAR + 1, 4, 2 * FAR + 3};
    size_t length = make("", "a\n", FAR, "<b>");
    CHECK(is_inline(by->inline_scan(big, length, from.index, CARRY), 0, 1, CARRY, to.index));
    CHECK(is_inline(by->inline_scan(big, length, length + 1, CARRY), 4, 0, CARRY, 0));
    CHECK(traces_inline(length, from, to));
}

/* Columns behind tabs, of four each, in both traces. */
static void far_columns(size_t tabs) {
    place start = {1, 1, 0}, stop = {1, 5 + 4 * tabs, 4 + tabs};
    size_t length = make("<!--", "\t", tabs, "");
    CHECK(stop.column > NARROW && traces_block(length, 1, start, stop, COMMENT));

    place from = {1, 1 + 4 * tabs, tabs}, to = {1, 4 + 4 * tabs, tabs + 3};
    length = make("", "\t", tabs, "<b>");
    CHECK(from.column > NARROW && traces_inline(length, from, to));
}

/* Where nothing is found, the stop of both traces is the index: here the length. */
static void far_none(void) {
    make_long(LIMIT, "", "\n", "");
    fill_lent(LAST);
    CHECK(is_written(foringamo_block_trace(big, LIMIT, zeros, LIMIT + 1, LIMIT, lent, LAST), 0, LAST));
    CHECK(lent_kept(LAST, LAST) && has_row(LAST, 0, (row){LAST_FLOW, 0, {0, 0, LIMIT}}));
    make_long(LIMIT, "", "a", "");
    fill_lent(LAST);
    CHECK(is_written(foringamo_inline_trace(big, LIMIT, LIMIT, CARRY, lent, LAST), 0, LAST));
    CHECK(lent_kept(LAST, LAST) && has_row(LAST, 0, (row){LAST_TEXT, CARRY, {0, 0, LIMIT}}));
}

/* A lazy line far behind ends a block; the trace leaves that one ending too far, as the block's last line has no bytes. */
static void far_lazy_line(const reading *by) {
    static uint8_t flags[2 * FAR];
    size_t length = make("<?", "\n", 2 * FAR - 1, "?>"), lines = 2 * FAR, stop = FAR + 1;
    size_t events = 2 * FAR + 2, trace = events * EVENT + LAST;
    flags[FAR] = 1;
    CHECK(is_block(by->block_scan(big, length, flags, lines, 0), 0, INSTRUCTION, 0, FORINGAMO_NO_NAME, stop, stop));
    fill_lent(length);
    CHECK(is_shown(by->withhold(big, length, flags, lines, lent, length), 0, length - stop, 1));
    CHECK(memcmp(lent, big + stop, length - stop) == 0 && lent_kept(length - stop, length));
    fill_lent(trace);
    CHECK(is_written(foringamo_block_trace(big, length, flags, lines, 0, lent, trace), 0, trace) && lent_kept(trace, trace));
    CHECK(has_row(trace, events - 1, (row){HTML_FLOW + EXIT, 0, {FAR + 1, 1, stop + 1}}));
    CHECK(has_row(trace, events, (row){LAST_FLOW, INSTRUCTION, {0, 0, stop}}));
}

/* As many pieces as a bulletin can have beside a byte that is shown, inline and as blocks. */
static void many_pieces(const reading *by) {
    enum { INLINE_PIECES = (LIMIT - 1) / 3, BLOCKS = LIMIT / 4 };
    size_t length = make("a", "<b>", INLINE_PIECES, "");
    CHECK(is_shown(withhold_in(by, length, length), 0, 1, INLINE_PIECES) && lent[0] == 'a' && lent_kept(1, length));
    length = make("", "<?>\n", BLOCKS, "");
    fill_lent(length);
    CHECK(is_shown(by->withhold(big, length, zeros, BLOCKS + 1, lent, length), 0, BLOCKS, BLOCKS) && lent_kept(BLOCKS, length));
    make_long(BLOCKS, "", "\n", "");
    CHECK(memcmp(lent, big, BLOCKS) == 0);
}

/* ---- the longest traces: of a block `<?` and line endings, and of an inline piece `<?`, lines `a`, and `?>` */

enum { BLOCK_LINES = LIMIT - 2, INLINE_LINES = (LIMIT - 4) / 2, OPENING = 3 };

/* The record of a number in that of the block. Behind the opening an enter and an exit for each line ending. */
static row block_row(size_t number) {
    static const row opening[OPENING] = {{HTML_FLOW, 0, {1, 1, 0}}, {HTML_FLOW_DATA, 0, {1, 1, 0}}, {HTML_FLOW_DATA + EXIT, 0, {1, 3, 2}}};
    if (number < OPENING) {
        return opening[number];
    }
    size_t line = (number - OPENING) / 2;
    int enters = (number - OPENING) % 2 == 0;
    if (line == BLOCK_LINES) {
        return enters ? (row){HTML_FLOW + EXIT, 0, {line + 1, 1, LIMIT}} : (row){LAST_FLOW, INSTRUCTION, {0, 0, LIMIT}};
    }
    return enters ? (row){LINE_ENDING, 0, {line + 1, line == 0 ? 3 : 1, line + 2}} : (row){LINE_ENDING + EXIT, 0, {line + 2, 1, line + 3}};
}

/* In that of the inline piece: those of the line ending, and of the data behind it. */
static row inline_row(size_t number) {
    static const row opening[OPENING] = {{HTML_TEXT, 0, {1, 1, 0}}, {HTML_TEXT_DATA, 0, {1, 1, 0}}, {HTML_TEXT_DATA + EXIT, 0, {1, 3, 2}}};
    if (number < OPENING) {
        return opening[number];
    }
    size_t line = (number - OPENING) / 4, closer = line == INLINE_LINES - 1 ? 2 : 0;
    const row rows[] = {
        {LINE_ENDING, 0, {line + 1, line == 0 ? 3 : 2, 2 + 2 * line}},
        {LINE_ENDING + EXIT, 0, {line + 2, 1, 3 + 2 * line}},
        {HTML_TEXT_DATA, 0, {line + 2, 1, 3 + 2 * line}},
        {HTML_TEXT_DATA + EXIT, 0, {line + 2, 2 + closer, 4 + 2 * line + closer}},
    };
    const row ends[] = {{HTML_TEXT + EXIT, 0, {INLINE_LINES + 1, 4, LIMIT}}, {LAST_TEXT, CARRY, {0, 0, LIMIT}}};
    return line < INLINE_LINES ? rows[(number - OPENING) % 4] : ends[(number - OPENING) % 2];
}

/* Whether a walk over the bytes of the trace that was lent, from a record to the next by its kind, finds these and so many. Some are read by their numbers too. */
static int has_rows(size_t length, size_t count, row (*expected)(size_t number)) {
    size_t number = 0, at = 0;
    int good = 1;
    while (at < length) {
        good &= is_row(record_in(lent + at), expected(number));
        at += length_of(lent[at]);
        number++;
    }
    return good && at == length && number == count && has_row(length, FAR, expected(FAR)) && has_row(length, count - 1, expected(count - 1)) &&
           is_record(foringamo_read_trace(lent, length, count), 9, 0, 0, 0, 0, 0);
}

/* It takes the room that always suffices, and with one byte less it is refused. It has no narrow trace. */
static void longest_block(const char *ending) {
    size_t lines = BLOCK_LINES + 1, events = OPENING + 2 * BLOCK_LINES + 1;
    make_long(LIMIT, "<?", ending, "");
    fill_lent(LONGEST);
    CHECK(is_written(foringamo_block_trace(big, LIMIT, zeros, lines, 0, lent, LONGEST - 1), 7, 0));
    CHECK(lent_kept(0, LONGEST));
    CHECK(is_written(foringamo_block_trace(big, LIMIT, zeros, lines, 0, lent, LONGEST), 0, LONGEST));
    CHECK(lent_kept(LONGEST, LONGEST) && has_rows(LONGEST, events + 1, block_row));
    CHECK(is_written(foringamo_narrow_trace(lent, LONGEST, NOWHERE, 0), 11, 0));
}

static void longest_inline(void) {
    size_t events = OPENING + 4 * INLINE_LINES + 1, trace = events * EVENT + LAST;
    CHECK(make("<?", "\na", INLINE_LINES, "?>") == LIMIT);
    fill_lent(trace);
    CHECK(is_written(foringamo_inline_trace(big, LIMIT, 0, CARRY, lent, trace - 1), 7, 0));
    CHECK(lent_kept(0, trace));
    CHECK(is_written(foringamo_inline_trace(big, LIMIT, 0, CARRY, lent, trace), 0, trace));
    CHECK(lent_kept(trace, trace) && has_rows(trace, events + 1, inline_row));
    CHECK(is_written(foringamo_narrow_trace(lent, trace, NOWHERE, 0), 11, 0));
}

/* ---- what the header says of room for a trace and of lines that open a block, of every short text over some bytes */

enum { TEXT_BYTES = 5, LINE_BYTES = 7, SPACES = 3 };

/* The next text of a length in the order of the bytes, where there is one. */
static int next_text(const char *bytes, size_t length) {
    for (size_t index = length; index > 0; index--) {
        const char *byte = strchr(bytes, big[index - 1]) + 1;
        big[index - 1] = (uint8_t)(*byte == 0 ? bytes[0] : *byte);
        if (*byte != 0) {
            return 1;
        }
    }
    return 0;
}

/* Whether the room that the header names does for both traces; notes where that of a block needs all of it. */
static int suffices(size_t length, int *whole) {
    size_t room = length * 28 + 6;
    foringamo_trace block = foringamo_block_trace(big, length, zeros, foringamo_count_lines(big, length), 0, lent, room);
    *whole |= block.length == room;
    return block.refusal == 0 && foringamo_inline_trace(big, length, 0, 0, lent, room).refusal != 7;
}

/* One byte opens no block, and the trace of none is a last record alone. */
static void room_for_traces(size_t length) {
    static const char bytes[] = "<?>!p/a \t\n";
    int good = 1, whole = 0;
    memset(big, bytes[0], length);
    do {
        good &= suffices(length, &whole);
    } while (next_text(bytes, length));
    CHECK(good);
    CHECK(whole == (length != 1));
}

/* Whether a text begins with `<` behind at most three spaces. */
static int may_open(size_t length) {
    size_t index = 0;
    while (index < length && big[index] == ' ') {
        index++;
    }
    return index < length && index <= SPACES && big[index] == '<';
}

static void lines_that_open(const reading *by) {
    static const char bytes[] = " \t<?a";
    int good = 1, blocks = 0;
    memset(big, bytes[0], LINE_BYTES);
    do {
        int found = by->block_scan(big, LINE_BYTES, zeros, 1, 0).kind != 0;
        good &= !found || may_open(LINE_BYTES);
        blocks += found;
    } while (next_text(bytes, LINE_BYTES));
    CHECK(good && blocks > 0);
}

int main(void) {
    limit();
    many_lines();
    far_block(&rust);
    far_block(&standard);
    far_inline(&rust);
    far_inline(&standard);
    far_columns(TABS);
    far_columns(LIMIT - 4);
    far_none();
    far_lazy_line(&rust);
    far_lazy_line(&standard);
    many_pieces(&rust);
    many_pieces(&standard);
    longest_block("\n");
    longest_block("\r");
    longest_inline();
    for (size_t length = 0; length <= TEXT_BYTES; length++) {
        room_for_traces(length);
    }
    lines_that_open(&rust);
    lines_that_open(&standard);
    return finish();
}
