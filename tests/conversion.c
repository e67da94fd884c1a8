/*
 * Old traces across and back: foringamo_widen_trace and foringamo_narrow_trace, by their rule, written once more over a list of records. tests/interface.sh builds
 * and runs it. A line for each check that fails; the last line is 'N passed, M failed'.
 */
#include "check.h"

/* How many bytes a line, column, index or stop has, in a narrow trace and in a wide one, and the greatest number of two bytes. */
enum { NARROW = 2, WIDE = 4, NARROW_MOST = 65535 };

/* The bytes of a narrow trace's records; check.h has those of a wide one. */
enum { NARROW_EVENT = 8, NARROW_LAST = 4 };

/* The kinds of a trace's records: events up to one, and the last records. */
enum { LAST_EVENT = 12, LAST_TEXT = 13, LAST_FLOW = 14 };

/* The fields of an event. A last record has one, its stop, which stands where the line does. */
enum { LINE, COLUMN, INDEX, FIELDS, STOP = LINE };

/* A record: its kind, its fields, and its last byte, which is vs, the carry or the block kind. */
typedef struct {
    uint8_t kind;
    uint32_t fields[FIELDS];
    uint8_t last;
} row;

/* A way across, with the bytes of a field before and after. */
typedef struct {
    foringamo_written (*convert)(const uint8_t *trace, size_t trace_len, uint8_t *out, size_t out_len);
    size_t from;
    size_t to;
} way;

static const way widening = {foringamo_widen_trace, NARROW, WIDE};
static const way narrowing = {foringamo_narrow_trace, WIDE, NARROW};

/* ---- records and their bytes */

static int is_last(int kind) {
    return kind == LAST_TEXT || kind == LAST_FLOW;
}

static size_t fields_of(int kind) {
    return is_last(kind) ? 1 : FIELDS;
}

static size_t length_of(int kind, size_t width) {
    return 1 + fields_of(kind) * width + 1;
}

/* Writes a record, each field low byte first; gives the place behind. One of a wrong kind is as long as an event. */
static uint8_t *put(uint8_t *to, row record, size_t width) {
    *to++ = record.kind;
    for (size_t field = 0; field < fields_of(record.kind); field++) {
        for (size_t byte = 0; byte < width; byte++) {
            *to++ = (uint8_t)(record.fields[field] >> 8 * byte);
        }
    }
    *to++ = record.last;
    return to;
}

/* Writes the trace of some records; gives its length. */
static size_t put_all(uint8_t *to, const row *rows, size_t count, size_t width) {
    uint8_t *place = to;
    for (size_t number = 0; number < count; number++) {
        place = put(place, rows[number], width);
    }
    return (size_t)(place - to);
}

/* The record that some bytes begin with. */
static row record_in(const uint8_t *bytes, size_t width) {
    row record = {bytes[0], {0}, bytes[length_of(bytes[0], width) - 1]};
    for (size_t field = 0; field < fields_of(record.kind); field++) {
        for (size_t byte = 0; byte < width; byte++) {
            record.fields[field] |= (uint32_t)bytes[1 + field * width + byte] << 8 * byte;
        }
    }
    return record;
}

/* The lengths are those that the header tells. */
static void lengths(void) {
    CHECK(length_of(1, NARROW) == NARROW_EVENT && length_of(LAST_EVENT, NARROW) == NARROW_EVENT);
    CHECK(length_of(LAST_TEXT, NARROW) == NARROW_LAST && length_of(LAST_FLOW, NARROW) == NARROW_LAST);
    CHECK(length_of(1, WIDE) == EVENT && length_of(LAST_EVENT, WIDE) == EVENT);
    CHECK(length_of(LAST_TEXT, WIDE) == LAST && length_of(LAST_FLOW, WIDE) == LAST);
}

/* ---- the rule: a trace is taken apart into a list, and that is judged */

/* The bytes of a short trace, and so its records, at most. */
enum { SHORT = 400 };

/* The list. */
static row taken[SHORT];
static size_t taken_count;

/* Takes a trace apart up to the first bad record; gives 8 or 9 for that, or 0. */
static int take_apart(const uint8_t *trace, size_t length, size_t width) {
    taken_count = 0;
    for (size_t at = 0; at < length; at += length_of(trace[at], width)) {
        if (trace[at] == 0 || trace[at] > LAST_FLOW) {
            return 8;
        }
        if (length - at < length_of(trace[at], width)) {
            return 9;
        }
        taken[taken_count++] = record_in(trace + at, width);
    }
    return 0;
}

/* Whether the list has one last record, and that at its end. */
static int ends_once(void) {
    size_t lasts = 0;
    for (size_t number = 0; number < taken_count; number++) {
        lasts += is_last(taken[number].kind);
    }
    return lasts == 1 && is_last(taken[taken_count - 1].kind);
}

/* Whether fields of so many bytes hold every number of the list. */
static int holds(size_t width) {
    uint32_t most = width == NARROW ? (uint32_t)NARROW_MOST : UINT32_MAX;
    for (size_t number = 0; number < taken_count; number++) {
        for (size_t field = 0; field < FIELDS; field++) {
            if (taken[number].fields[field] > most) {
                return 0;
            }
        }
    }
    return 1;
}

/* The refusal where there is room enough, or 0. */
static int judge(const way *across, const uint8_t *trace, size_t length) {
    int bad = take_apart(trace, length, across->from);
    return bad != 0 ? bad : !ends_once() ? 10 : !holds(across->to) ? 11 : 0;
}

/* ---- what a way across gives */

/* Some bytes past the room, and the buffer that is lent: it takes the longest trace and as many bytes more. */
enum { MANY = 2000000, LONGEST = MANY * EVENT + LAST, PAST = 16 };
static uint8_t lent[LONGEST + 2 * PAST];

/* Whether it gives, with so much room, a refusal, or where this is 0 these bytes, or 7; what is behind them, in the room and past it, is as before. */
static int gives_in(size_t room, const way *across, const uint8_t *trace, size_t length, int refusal, const uint8_t *bytes, size_t needed) {
    int given = refusal != 0 ? refusal : room < needed ? 7 : 0;
    size_t written = given == 0 ? needed : 0;
    memset(lent, FILL, room + PAST);
    foringamo_written r = across->convert(trace, length, lent, room);
    return is_written(r, given, written) && memcmp(lent, bytes, written) == 0 && kept(lent + written, room + PAST - written);
}

/* The same in every room up to more than enough, and in none behind a pointer to nothing. */
static int gives(const way *across, const uint8_t *trace, size_t length, int refusal, const uint8_t *bytes, size_t needed) {
    int good = is_written(across->convert(trace, length, NOWHERE, 0), refusal != 0 ? refusal : 7, 0);
    for (size_t room = 0; room <= 2 * length + PAST; room++) {
        good &= gives_in(room, across, trace, length, refusal, bytes, needed);
    }
    return good;
}

/* Whether it gives what the rule says, and leaves the trace as it is. */
static int is_ruled(const way *across, const uint8_t *trace, size_t length) {
    static uint8_t expected[2 * SHORT], before[SHORT];
    int refusal = judge(across, trace, length);
    size_t needed = refusal == 0 ? put_all(expected, taken, taken_count, across->to) : 0;
    memcpy(before, trace, length);
    return gives(across, trace, length, refusal, expected, needed) && memcmp(before, trace, length) == 0;
}

/* The same where the rule says this. */
static int bytes_give(int refusal, const way *across, const uint8_t *trace, size_t length) {
    return judge(across, trace, length) == refusal && is_ruled(across, trace, length);
}

/* The same of the trace of some records, with some bytes behind it. */
static int rows_give_with(int refusal, const way *across, const row *rows, size_t rows_count, const uint8_t *behind, size_t behind_length) {
    static uint8_t trace[SHORT];
    size_t length = put_all(trace, rows, rows_count, across->from);
    memcpy(trace + length, behind, behind_length);
    return bytes_give(refusal, across, trace, length + behind_length);
}

static int rows_give(int refusal, const way *across, const row *rows, size_t rows_count) {
    return rows_give_with(refusal, across, rows, rows_count, TEXT(""));
}

/* Whether the record of a number in a wide trace is this one. */
static int reads(const uint8_t *trace, size_t length, size_t number, row expected) {
    foringamo_record r = foringamo_read_trace(trace, length, number);
    const uint32_t *fields = expected.fields;
    return is_last(expected.kind) ? is_record(r, 0, expected.kind, expected.last, 0, 0, fields[STOP])
                                  : is_record(r, 0, expected.kind, expected.last, fields[LINE], fields[COLUMN], fields[INDEX]);
}

/* Whether the narrow trace of some records becomes their wide one, with each of them read there, and that the narrow one. */
static int cross(const row *rows, size_t rows_count) {
    static uint8_t narrow[SHORT], wide[SHORT];
    size_t narrow_length = put_all(narrow, rows, rows_count, NARROW), wide_length = put_all(wide, rows, rows_count, WIDE);
    int good = gives(&widening, narrow, narrow_length, 0, wide, wide_length) && gives(&narrowing, wide, wide_length, 0, narrow, narrow_length);
    good = good && gives_in(wide_length, &widening, narrow, narrow_length, 0, wide, wide_length);
    for (size_t number = 0; number < rows_count; number++) {
        good = good && reads(lent, wide_length, number, rows[number]);
    }
    return good;
}

/* ---- what is taken */

/* Some records, and how many they are. */
#define ROWS(...) (const row[]){__VA_ARGS__}, sizeof((const row[]){__VA_ARGS__}) / sizeof(row)

static const row event = {5, {0x0102, 0x0304, 0x0506}, 7};
static const row other = {LAST_EVENT, {1, 2, 3}, 4};
static const row last = {LAST_TEXT, {0x0809}, 5};

/* The trace of `<b>`, docs/SCOPE.md, Traces: narrow, as it once was, and wide. */
static const uint8_t narrow_b[] = {
    0x07, 0x01, 0x00, 0x01, 0x00, 0x00, 0x00, 0x00,
    0x09, 0x01, 0x00, 0x01, 0x00, 0x00, 0x00, 0x00,
    0x0a, 0x01, 0x00, 0x04, 0x00, 0x03, 0x00, 0x00,
    0x08, 0x01, 0x00, 0x04, 0x00, 0x03, 0x00, 0x00,
    0x0d, 0x03, 0x00, 0x00,
};
static const uint8_t wide_b[] = {
    0x07, 0x01, 0x00, 0x00, 0x00, 0x01, 0x00, 0x00, 0x00, 0x00, 0x00, 0x00, 0x00, 0x00,
    0x09, 0x01, 0x00, 0x00, 0x00, 0x01, 0x00, 0x00, 0x00, 0x00, 0x00, 0x00, 0x00, 0x00,
    0x0a, 0x01, 0x00, 0x00, 0x00, 0x04, 0x00, 0x00, 0x00, 0x03, 0x00, 0x00, 0x00, 0x00,
    0x08, 0x01, 0x00, 0x00, 0x00, 0x04, 0x00, 0x00, 0x00, 0x03, 0x00, 0x00, 0x00, 0x00,
    0x0d, 0x03, 0x00, 0x00, 0x00, 0x00,
};

static void b_across(void) {
    CHECK(gives(&widening, narrow_b, sizeof narrow_b, 0, wide_b, sizeof wide_b));
    CHECK(gives(&narrowing, wide_b, sizeof wide_b, 0, narrow_b, sizeof narrow_b));
    CHECK(is_ruled(&widening, narrow_b, sizeof narrow_b) && is_ruled(&narrowing, wide_b, sizeof wide_b));
}

/* Whether a scan's trace comes back as it was. */
static int comes_back(foringamo_trace scanned, const uint8_t *trace) {
    static uint8_t narrow[SHORT];
    foringamo_written r = foringamo_narrow_trace(trace, scanned.length, narrow, sizeof narrow);
    return scanned.refusal == 0 && bytes_give(0, &narrowing, trace, scanned.length) && gives(&widening, narrow, r.length, 0, trace, scanned.length);
}

static void scans(void) {
    static const uint8_t flags[4];
    static uint8_t trace[SHORT];
    CHECK(comes_back(foringamo_inline_trace(TEXT("<b>"), 0, 0, trace, sizeof trace), trace));
    CHECK(comes_back(foringamo_inline_trace(TEXT("a <b\r\n\tc>"), 2, 4, trace, sizeof trace), trace));
    CHECK(comes_back(foringamo_inline_trace(TEXT("<b>"), 3, 5, trace, sizeof trace), trace));
    CHECK(comes_back(foringamo_block_trace(TEXT("  <!--\n\tx\r\n-->\n"), flags, 4, 0, trace, sizeof trace), trace));
    CHECK(comes_back(foringamo_block_trace(TEXT("x\n"), flags, 2, 2, trace, sizeof trace), trace));
}

/* So many events and a last record: a caller knows the room. */
static void room(void) {
    static uint8_t narrow[SHORT], wide[SHORT];
    for (size_t events = 0; events <= 20; events++) {
        row rows[21];
        for (size_t number = 0; number < events; number++) {
            rows[number] = number % 3 == 0 ? event : other;
        }
        rows[events] = last;
        size_t narrow_length = events * NARROW_EVENT + NARROW_LAST, wide_length = events * EVENT + LAST;
        CHECK(put_all(narrow, rows, events + 1, NARROW) == narrow_length && put_all(wide, rows, events + 1, WIDE) == wide_length);
        CHECK(cross(rows, events + 1));
    }
}

/* Every byte as vs, carry and block kind, and every kind of event behind every other. */
static void any_bytes(void) {
    for (int byte = 0; byte < 256; byte++) {
        row first = event, text = last, flow = {LAST_FLOW, {0x0a0b}, 0};
        first.last = (uint8_t)byte;
        text.last = (uint8_t)(byte + 1);
        flow.last = (uint8_t)(byte + 2);
        CHECK(cross(ROWS(first, text)) && cross(ROWS(first, flow)) && cross(ROWS(text)) && cross(ROWS(flow)));
    }
    for (uint8_t kind = 1; kind <= LAST_EVENT; kind++) {
        for (uint8_t next = 1; next <= LAST_EVENT; next++) {
            row first = event, second = other;
            first.kind = kind;
            second.kind = next;
            CHECK(cross(ROWS(first, second, last)));
        }
    }
}

/* ---- what is refused */

/* A field of a record at its most in two bytes, and above: all others are less. */
static void field_alone(const row *rows, size_t rows_count, size_t number, size_t field) {
    static const uint32_t above[] = {NARROW_MOST + 1, NARROW_MOST + 2, 2 * NARROW_MOST, 0x00100000, 0x01000000, 0x01000001, 0x80000000, UINT32_MAX};
    row changed[4];
    memcpy(changed, rows, rows_count * sizeof *rows);
    changed[number].fields[field] = NARROW_MOST;
    CHECK(cross(changed, rows_count));
    for (size_t i = 0; i < sizeof above / sizeof *above; i++) {
        changed[number].fields[field] = above[i];
        CHECK(rows_give(11, &narrowing, changed, rows_count));
    }
}

/* Each of the four, in each record of a trace, and all at once. */
static void fields(uint8_t last_kind) {
    const row rows[] = {event, other, event, {last_kind, {6}, 0}};
    row most[4];
    for (size_t number = 0; number < 4; number++) {
        most[number] = rows[number];
        for (size_t field = 0; field < fields_of(rows[number].kind); field++) {
            most[number].fields[field] = NARROW_MOST;
            field_alone(rows, 4, number, field);
        }
    }
    CHECK(cross(most, 4));
    field_alone(&rows[3], 1, 0, STOP);
}

/* Whether this is given where the record of a number has another kind byte, and its length as before. */
static int kind_gives(int refusal, const way *across, int kind, size_t number, const row *rows, size_t rows_count) {
    static uint8_t trace[SHORT];
    size_t length = put_all(trace, rows, rows_count, across->from), at = put_all(trace, rows, number, across->from);
    trace[at] = (uint8_t)kind;
    return bytes_give(refusal, across, trace, length);
}

/* Every kind byte first, in the middle, at the end and behind the last record; a wrong one in place of both, an event's and a last record's. */
static void kinds(const way *across) {
    for (int kind = 0; kind < 256; kind++) {
        int bad = kind == 0 || kind > LAST_FLOW;
        if (bad || !is_last(kind)) {
            CHECK(kind_gives(bad ? 8 : 0, across, kind, 0, ROWS(event, other, last)));
            CHECK(kind_gives(bad ? 8 : 0, across, kind, 1, ROWS(event, other, last)));
            CHECK(kind_gives(bad ? 8 : 10, across, kind, 1, ROWS(event, other)));
            CHECK(kind_gives(bad ? 8 : 10, across, kind, 2, ROWS(event, last, other)));
        }
        if (bad || is_last(kind)) {
            CHECK(kind_gives(bad ? 8 : 0, across, kind, 0, ROWS(last)));
            CHECK(kind_gives(bad ? 8 : 0, across, kind, 2, ROWS(event, other, last)));
            CHECK(kind_gives(bad ? 8 : 10, across, kind, 0, ROWS(last, event, last)));
            CHECK(kind_gives(bad ? 8 : 10, across, kind, 1, ROWS(event, last, other, last)));
            CHECK(kind_gives(bad ? 8 : 10, across, kind, 2, ROWS(event, last, last)));
        }
    }
}

/* A last record that is missing, in front, in the middle, or there twice. */
static void ends(const way *across) {
    const row flow = {LAST_FLOW, {6}, 7};
    CHECK(gives(across, NOWHERE, 0, 10, lent, 0));
    CHECK(bytes_give(10, across, TEXT("")));
    for (int which = 0; which < 4; which++) {
        row end = which % 2 == 0 ? last : flow, first = which < 2 ? last : flow;
        CHECK(rows_give(0, across, ROWS(end)));
        CHECK(rows_give(0, across, ROWS(event, other, end)));
        CHECK(rows_give(10, across, ROWS(first, end)));
        CHECK(rows_give(10, across, ROWS(event, first, end)));
        CHECK(rows_give(10, across, ROWS(first, event, end)));
        CHECK(rows_give(10, across, ROWS(event, first, event, end)));
        CHECK(rows_give(10, across, ROWS(first, end, event)));
        CHECK(rows_give(10, across, ROWS(first, end, first)));
    }
    CHECK(rows_give(10, across, ROWS(event)));
    CHECK(rows_give(10, across, ROWS(event, other)));
    CHECK(rows_give(10, across, ROWS(last, event)));
    CHECK(rows_give(10, across, ROWS(event, last, event)));
}

/* A trace cut at every length; what is cut off still stands behind. 0 and where a record ends are no cuts. */
static void cuts(const way *across) {
    static uint8_t trace[SHORT];
    const row rows[] = {event, last, other, last};
    size_t first = length_of(event.kind, across->from), second = first + length_of(last.kind, across->from);
    size_t third = second + length_of(other.kind, across->from), fourth = third + length_of(last.kind, across->from);
    CHECK(put_all(trace, rows, 4, across->from) == fourth);
    for (size_t length = 0; length <= fourth; length++) {
        int whole = length == 0 || length == first || length == third || length == fourth;
        CHECK(bytes_give(length == second ? 0 : whole ? 10 : 9, across, trace, length));
    }
    for (uint8_t kind = 1; kind <= LAST_FLOW; kind++) {
        for (size_t length = 1; length < length_of(kind, across->from); length++) {
            const uint8_t part[EVENT] = {kind, 1, 1, 1, 1, 1, 1, 1, 1, 1, 1, 1, 1, 1};
            CHECK(bytes_give(9, across, part, length));
            CHECK(rows_give_with(9, across, ROWS(event, last), part, length));
        }
    }
}

/* Which refusal comes first, of two or three that apply; each is given in every room. */
static void order(const way *across) {
    const row bad = {LAST_FLOW + 1, {1, 2, 3}, 4};
    /* 8 and 9 by the first bad record, behind a last record too; a wrong kind alone is no cut. */
    CHECK(rows_give_with(8, across, ROWS(bad, event), TEXT("\x05")));
    CHECK(rows_give_with(8, across, ROWS(event, last), TEXT("\x00")));
    CHECK(rows_give_with(8, across, ROWS(event, last), TEXT("\xff")));
    CHECK(rows_give_with(9, across, ROWS(event, last), TEXT("\x05")));
    CHECK(rows_give_with(9, across, ROWS(event, last), TEXT("\x05\x00\x00")));
    CHECK(rows_give_with(8, across, ROWS(bad), TEXT("\x0d")));
    /* Before 10. */
    CHECK(rows_give(8, across, ROWS(last, last, bad)));
    CHECK(rows_give(8, across, ROWS(event, bad)));
    CHECK(rows_give_with(9, across, ROWS(event, event), TEXT("\x0d")));
    CHECK(rows_give_with(9, across, ROWS(last, event, last), TEXT("\x0e")));
}

/* 11 behind all of them. */
static void order_above(void) {
    const row bad = {0, {1, 2, 3}, 4}, above = {1, {NARROW_MOST + 1, 1, 1}, 0}, above_last = {LAST_FLOW, {NARROW_MOST + 1}, 0};
    CHECK(rows_give(8, &narrowing, ROWS(above, bad, last)));
    CHECK(rows_give(8, &narrowing, ROWS(event, above_last, bad)));
    CHECK(rows_give_with(9, &narrowing, ROWS(above, last), TEXT("\x05")));
    CHECK(rows_give_with(9, &narrowing, ROWS(above_last), TEXT("\x0d")));
    CHECK(rows_give(10, &narrowing, ROWS(above)));
    CHECK(rows_give(10, &narrowing, ROWS(above, last, last)));
    CHECK(rows_give(10, &narrowing, ROWS(above_last, above)));
    CHECK(rows_give(11, &narrowing, ROWS(above, above_last)));
}

/* ---- pseudo-random traces, some of them cut, longer, or with another byte */

enum { MOST_EVENTS = 6, ROUNDS = 5000, REFUSALS = 12 };

static uint32_t random_field(void) {
    static const uint32_t some[] = {0, 1, 255, 256, NARROW_MOST - 1, NARROW_MOST};
    return below(50) == 0 ? NARROW_MOST + 1 + (uint32_t)below(3) : some[below(sizeof some / sizeof *some)];
}

static row random_row(int kind) {
    row record = {(uint8_t)kind, {0}, (uint8_t)below(256)};
    for (size_t field = 0; field < fields_of(kind); field++) {
        record.fields[field] = random_field();
    }
    return record;
}

static void random_traces(const way *across) {
    static uint8_t trace[SHORT];
    size_t met[REFUSALS] = {0};
    for (int round = 0; round < ROUNDS; round++) {
        uint8_t *place = trace;
        for (size_t events = below(MOST_EVENTS + 1); events > 0; events--) {
            place = put(place, random_row(1 + (int)below(below(20) == 0 ? LAST_FLOW : LAST_EVENT)), across->from);
        }
        place = put(place, random_row(LAST_TEXT + (int)below(2)), across->from);
        size_t length = (size_t)(place - trace);
        switch (below(8)) {
        case 0:
            length = below(length + 1);
            break;
        case 1:
            length += below(length_of(1, across->from) + 1);
            break;
        case 2:
            trace[below(length)] = (uint8_t)below(256);
            break;
        case 3:
            trace[below(length)] = (uint8_t)below(LAST_FLOW + 2);
            break;
        }
        CHECK(is_ruled(across, trace, length));
        met[judge(across, trace, length)]++;
    }
    CHECK(met[0] >= ROUNDS / 10 && met[8] >= ROUNDS / 100 && met[9] >= ROUNDS / 100 && met[10] >= ROUNDS / 100);
    CHECK(across->to == WIDE ? met[11] == 0 : met[11] >= ROUNDS / 100);
}

/* ---- a trace that is longer than a text may be: no length is refused */

enum { NARROW_LONGEST = MANY * NARROW_EVENT + NARROW_LAST };

static row many_row(size_t number) {
    uint32_t line = (uint32_t)(number % (NARROW_MOST + 1)), column = (uint32_t)(number / 32), index = (uint32_t)(number * 7 % NARROW_MOST);
    row record = {(uint8_t)(1 + number % LAST_EVENT), {line, column, index}, (uint8_t)number};
    return number < MANY ? record : last;
}

/* Whether one trace becomes the other in a room that is exact, one byte short, or longer. */
static int becomes(const way *across, const uint8_t *trace, size_t length, const uint8_t *expected, size_t needed) {
    return gives_in(needed, across, trace, length, 0, expected, needed) && gives_in(needed - 1, across, trace, length, 0, expected, needed) &&
           gives_in(needed + PAST, across, trace, length, 0, expected, needed);
}

static int refuses(int refusal, const way *across, const uint8_t *trace, size_t length) {
    return gives_in(LONGEST, across, trace, length, refusal, trace, 0);
}

/* What is wrong only at its end. */
static void many_refused(const way *across, uint8_t *trace, size_t length) {
    size_t end = length - length_of(last.kind, across->from);
    CHECK(refuses(9, across, trace, length - 1));
    CHECK(refuses(10, across, trace, end));
    trace[end] = LAST_FLOW + 1;
    CHECK(refuses(8, across, trace, length));
    trace[end] = last.kind;
}

static void many(void) {
    static uint8_t narrow[NARROW_LONGEST], wide[LONGEST];
    uint8_t *narrow_place = narrow, *wide_place = wide;
    for (size_t number = 0; number <= MANY; number++) {
        narrow_place = put(narrow_place, many_row(number), NARROW);
        wide_place = put(wide_place, many_row(number), WIDE);
    }
    CHECK(narrow_place == narrow + sizeof narrow && wide_place == wide + sizeof wide);
    CHECK(becomes(&widening, narrow, sizeof narrow, wide, sizeof wide));
    CHECK(becomes(&narrowing, wide, sizeof wide, narrow, sizeof narrow));
    many_refused(&widening, narrow, sizeof narrow);
    many_refused(&narrowing, wide, sizeof wide);
    wide[sizeof wide - LAST + 3] = 1;
    CHECK(refuses(11, &narrowing, wide, sizeof wide));
}

int main(void) {
    lengths();
    b_across();
    scans();
    room();
    any_bytes();
    fields(LAST_TEXT);
    fields(LAST_FLOW);
    kinds(&widening);
    kinds(&narrowing);
    ends(&widening);
    ends(&narrowing);
    cuts(&widening);
    cuts(&narrowing);
    order(&widening);
    order(&narrowing);
    order_above();
    random_traces(&widening);
    random_traces(&narrowing);
    many();
    return finish();
}
