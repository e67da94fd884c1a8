/*
 * Finding, showing beside spans, and stretches: the layout of the structs, lists and buffers of every length about what is needed, each condition of refusal 12 alone
 * and with others, numbers up to the greatest, and pseudo-random bulletins, whose spans are judged by the scans and by a rule of this file. A line for each check that
 * fails; the last line is 'N passed, M failed'.
 */
#include "bulletins.h"

/* The bulletin of docs/SCOPE.md, The added screen, its spans, and what is shown beside them. */
#define DOOR TEXT("door <!-- x -->9\n<div>\nold\n\nok")
static const uint32_t bars[] = {5, 15, 0, 17, 26, 1};
#define BARS bars, 6
static const char door_shown[] = "door 9\n\n\nok";

/* A list that is lent, and what it holds before. */
#define LIST_ROOM 40
#define NUMBER_FILL 0xeeeeeeee
static uint32_t list[LIST_ROOM];

static void fill_list(void) {
    for (size_t i = 0; i < LIST_ROOM; i++) {
        list[i] = NUMBER_FILL;
    }
}

static int list_kept_from(size_t from) {
    for (size_t i = from; i < LIST_ROOM; i++) {
        if (list[i] != NUMBER_FILL) {
            return 0;
        }
    }
    return 1;
}

/* The list begins with these numbers, and behind them is as before. */
static int lists(const uint32_t *numbers, size_t count) {
    return memcmp(list, numbers, count * sizeof *numbers) == 0 && list_kept_from(count);
}

static int is_found(foringamo_spans r, int refusal, size_t count) {
    return r.refusal == refusal && r.count == count;
}

static int is_part(foringamo_part p, size_t start, size_t length) {
    return p.start == start && p.length == length;
}

static void layout(void) {
    CHECK(sizeof(foringamo_spans) == 16);
    CHECK(offsetof(foringamo_spans, refusal) == 0);
    CHECK(offsetof(foringamo_spans, count) == 8);
    CHECK(sizeof(foringamo_part) == 16);
    CHECK(offsetof(foringamo_part, start) == 0);
    CHECK(offsetof(foringamo_part, length) == 8);
}

#define REFUSES_FOUND(refusal, call) (fill_list(), CHECK(is_found(call, refusal, 0) && list_kept_from(0)))

static void find(const reading *by) {
    REFUSES_FOUND(1, by->find(big, LIMIT + 1, zeros, 1, list, LIST_ROOM));
    REFUSES_FOUND(1, by->find(big, LIMIT + 1, wrong, 2, list, 0));
    REFUSES_FOUND(2, by->find(TEXT("a\nb"), zeros, 3, list, LIST_ROOM));
    REFUSES_FOUND(2, by->find(TEXT("<b>"), wrong, 2, list, 0));
    REFUSES_FOUND(2, by->find(NOWHERE, 0, NOWHERE, 0, list, LIST_ROOM));
    REFUSES_FOUND(3, by->find(TEXT("<b>"), wrong, 1, list, 0));
    REFUSES_FOUND(7, by->find(TEXT("<b>"), zeros, 1, (uint32_t *)NOWHERE, 0));
    for (size_t room = 0; room <= LIST_ROOM; room++) {
        fill_list();
        foringamo_spans r = by->find(DOOR, zeros, 5, list, room);
        if (room < 6) {
            CHECK(is_found(r, 7, 0) && list_kept_from(0));
        } else {
            CHECK(is_found(r, 0, 2) && lists(BARS));
        }
    }
    fill_list();
    CHECK(is_found(by->find(NOWHERE, 0, zeros, 1, (uint32_t *)NOWHERE, 0), 0, 0));
    CHECK(is_found(by->find(TEXT("a"), zeros, 1, list, LIST_ROOM), 0, 0) && list_kept_from(0));
    const uint32_t touching[] = {1, 4, 0, 4, 7, 0};
    CHECK(is_found(by->find(TEXT("a<b><i>"), zeros, 1, list, LIST_ROOM), 0, 2) && lists(touching, 6));
}

/* Withholding where a list and a buffer of these lengths are lent. */
static void withhold_in(const reading *by, size_t numbers, size_t room) {
    fill_list();
    fill();
    foringamo_shown r = by->withhold_into(DOOR, zeros, 5, list, numbers, out, room);
    if (numbers < 6 || room < sizeof door_shown - 1) {
        CHECK(is_shown(r, 7, 0, 0) && list_kept_from(0) && kept_from(0));
    } else {
        CHECK(is_shown(r, 0, sizeof door_shown - 1, 2) && lists(BARS) && has(TEXT(door_shown)));
    }
}

#define REFUSES_BOTH(refusal, call) (fill_list(), fill(), CHECK(is_shown(call, refusal, 0, 0) && list_kept_from(0) && kept_from(0)))

static void withhold(const reading *by) {
    REFUSES_BOTH(1, by->withhold_into(big, LIMIT + 1, wrong, 2, list, 0, out, 0));
    REFUSES_BOTH(2, by->withhold_into(TEXT("a<b>"), wrong, 2, list, 0, out, 0));
    REFUSES_BOTH(3, by->withhold_into(TEXT("a<b>"), wrong, 1, list, 0, out, 0));
    REFUSES_BOTH(7, by->withhold_into(TEXT("a<b>"), zeros, 1, list, LIST_ROOM, out, 0));
    REFUSES_BOTH(7, by->withhold_into(TEXT("a<b>"), zeros, 1, list, 2, out, ROOM));
    for (size_t numbers = 0; numbers <= LIST_ROOM; numbers++) {
        for (size_t room = 0; room <= ROOM; room++) {
            withhold_in(by, numbers, room);
        }
    }
}

/* A list, and what showing beside it gives of `abcd`: bytes, or NULL where it is refused. */
typedef struct {
    const char *what;
    size_t count;
    uint32_t numbers[9];
    const char *shown;
} list_row;

static const list_row list_rows[] = {
    {"no spans", 0, {0}, "abcd"},
    {"one", 3, {1, 2, 0}, "acd"},
    {"a block", 3, {1, 2, 1}, "acd"},
    {"over the whole", 3, {0, 4, 0}, ""},
    {"touching", 6, {0, 2, 1, 2, 4, 0}, ""},
    {"touching, with one behind", 9, {0, 1, 0, 1, 2, 1, 3, 4, 0}, "c"},
    {"of one number", 1, {1}, NULL},
    {"of two numbers", 2, {1, 2}, NULL},
    {"one and a half", 4, {0, 1, 0, 2}, NULL},
    {"two without the kind", 5, {0, 1, 0, 2, 4}, NULL},
    {"out of order", 6, {2, 3, 0, 0, 1, 0}, NULL},
    {"overlapping by a byte", 6, {0, 3, 0, 2, 4, 0}, NULL},
    {"the same twice", 6, {1, 2, 0, 1, 2, 0}, NULL},
    {"one in another", 6, {0, 4, 1, 1, 2, 0}, NULL},
    {"a stop at its start", 3, {2, 2, 0}, NULL},
    {"a stop before its start", 3, {2, 1, 0}, NULL},
    {"past the end by a byte", 3, {2, 5, 0}, NULL},
    {"at the end, empty", 3, {4, 4, 0}, NULL},
    {"behind the end", 3, {5, 6, 0}, NULL},
    {"of kind 2", 3, {1, 2, 2}, NULL},
    {"of the greatest kind", 3, {1, 2, UINT32_MAX}, NULL},
    {"to the greatest stop", 3, {0, UINT32_MAX, 0}, NULL},
    {"from the greatest start", 3, {UINT32_MAX, UINT32_MAX, 0}, NULL},
    {"from below the greatest", 3, {UINT32_MAX - 1, UINT32_MAX, 1}, NULL},
    {"all greatest", 3, {UINT32_MAX, UINT32_MAX, UINT32_MAX}, NULL},
    {"a kind of 256", 3, {1, 2, 256}, NULL},
    {"a stop of 65,538", 3, {1, 65538, 0}, NULL},
    {"good, then of kind 2", 6, {0, 1, 0, 2, 3, 2}, NULL},
    {"overlapping, past the end, of kind 7, not whole", 8, {0, 3, 0, 2, 9, 7, 1, 1}, NULL},
};

static void show_row(const list_row *row) {
    size_t length = row->shown == NULL ? 0 : strlen(row->shown);
    for (size_t room = 0; room <= ROOM; room++) {
        fill();
        foringamo_written r = foringamo_show(TEXT("abcd"), row->numbers, row->count, out, room);
        int refusal = row->shown == NULL ? 12 : room < length ? 7 : 0;
        int good = refusal == 0 ? is_written(r, 0, length) && has((const uint8_t *)row->shown, length) : is_written(r, refusal, 0) && kept_from(0);
        check(good, __FILE__, __LINE__, row->what);
    }
}

static void show(void) {
    for (size_t i = 0; i < sizeof list_rows / sizeof *list_rows; i++) {
        show_row(&list_rows[i]);
    }
    const uint32_t odd[] = {0, 0, 9, 9};
    REFUSES_WRITTEN(1, foringamo_show(big, LIMIT + 1, odd, 4, out, 0));
    REFUSES_WRITTEN(1, foringamo_show(big, LIMIT + 1, odd, 0, out, ROOM));
    REFUSES_WRITTEN(12, foringamo_show(NOWHERE, 0, odd, 3, out, 0));
    REFUSES_WRITTEN(7, foringamo_show(TEXT("a"), (const uint32_t *)NOWHERE, 0, NOWHERE, 0));
    REFUSES_WRITTEN(7, foringamo_show(big, LIMIT, odd, 0, out, ROOM));
    CHECK(is_written(foringamo_show(NOWHERE, 0, (const uint32_t *)NOWHERE, 0, NOWHERE, 0), 0, 0));
}

static void stretches(void) {
    CHECK(is_part(foringamo_stretch(DOOR, BARS, 0), 0, 5));
    CHECK(is_part(foringamo_stretch(DOOR, BARS, 1), 15, 2));
    CHECK(is_part(foringamo_stretch(DOOR, BARS, 2), 26, 4));
    CHECK(is_part(foringamo_stretch(DOOR, BARS, 3), 0, 0));
    CHECK(is_part(foringamo_stretch(DOOR, BARS, SIZE_MAX), 0, 0));

    /* Empty ones have their start. */
    const uint32_t touching[] = {0, 1, 0, 1, 4, 1};
    CHECK(is_part(foringamo_stretch(TEXT("abcd"), touching, 6, 0), 0, 0));
    CHECK(is_part(foringamo_stretch(TEXT("abcd"), touching, 6, 1), 1, 0));
    CHECK(is_part(foringamo_stretch(TEXT("abcd"), touching, 6, 2), 4, 0));
    CHECK(is_part(foringamo_stretch(TEXT("abcd"), touching, 6, 3), 0, 0));

    const uint32_t *none = (const uint32_t *)NOWHERE;
    CHECK(is_part(foringamo_stretch(TEXT("abcd"), none, 0, 0), 0, 4));
    CHECK(is_part(foringamo_stretch(TEXT("abcd"), none, 0, 1), 0, 0));
    CHECK(is_part(foringamo_stretch(NOWHERE, 0, none, 0, 0), 0, 0));
    CHECK(is_part(foringamo_stretch(big, LIMIT, none, 0, 0), 0, LIMIT));
    CHECK(is_part(foringamo_stretch(big, LIMIT + 1, none, 0, 0), 0, 0));
    const uint32_t late[] = {LIMIT - 1, LIMIT, 0};
    CHECK(is_part(foringamo_stretch(big, LIMIT, late, 3, 0), 0, LIMIT - 1));
    CHECK(is_part(foringamo_stretch(big, LIMIT, late, 3, 1), LIMIT, 0));
    for (size_t i = 0; i < sizeof list_rows / sizeof *list_rows; i++) {
        const list_row *row = &list_rows[i];
        for (size_t n = 0; row->shown == NULL && n < 4; n++) {
            check(is_part(foringamo_stretch(TEXT("abcd"), row->numbers, row->count, n), 0, 0), __FILE__, __LINE__, row->what);
        }
    }
}

/* ---- pseudo-random bulletins */

static uint32_t found[SPAN * SHORT];
static uint8_t shown[SHORT], joined[SHORT];

/* The rule of refusal 12. */
static int are_spans(const uint32_t *numbers, size_t count, size_t end) {
    size_t from = 0;
    for (size_t i = 0; i + SPAN <= count; i += SPAN) {
        if (numbers[i] < from || numbers[i + 1] <= numbers[i] || numbers[i + 1] > end || numbers[i + 2] > 1) {
            return 0;
        }
        from = numbers[i + 1];
    }
    return count % SPAN == 0;
}

/* Whether an index is that of a line's first byte. */
static int begins_line(const screen_case *row, size_t index) {
    return index == 0 || row->bulletin[index - 1] == '\n' || (row->bulletin[index - 1] == '\r' && row->bulletin[index] != '\n');
}

/* Whether a span is that of a piece: a block with the scan's stop, where the scan finds one at the line's start, or else an inline piece; and its bytes are HTML. */
static int is_span(const reading *by, const screen_case *row, const uint8_t *marks, const uint32_t *span) {
    foringamo_block block = {0};
    if (begins_line(row, span[0])) {
        block = block_at(by, row, span[0]);
    }
    int good = span[2] == (block.kind != 0) && (block.kind == 0 || block.stop == span[1]) && marks[span[0]] == COUNTS;
    for (size_t i = span[0]; i < span[1]; i++) {
        good &= marks[i] != OUTSIDE;
    }
    return good;
}

/* Whether finding tells the pieces that the scans find: no byte of HTML is left out. */
static int finds(const reading *by, const screen_case *row, const uint8_t *marks, size_t count) {
    size_t bytes = 0, html = 0;
    int good = are_spans(found, SPAN * count, row->length);
    for (size_t n = 0; n < count; n++) {
        good = good && is_span(by, row, marks, found + SPAN * n);
        bytes += found[SPAN * n + 1] - found[SPAN * n];
    }
    for (size_t i = 0; i < row->length; i++) {
        html += marks[i] != OUTSIDE;
    }
    return good && bytes == html;
}

/* All stretches, one after the other. */
static size_t join(const screen_case *row, size_t count) {
    size_t length = 0;
    for (size_t n = 0; n <= count; n++) {
        foringamo_part part = foringamo_stretch(row->bulletin, row->length, found, SPAN * count, n);
        memcpy(joined + length, row->bulletin + part.start, part.length);
        length += part.length;
    }
    return length;
}

/* Withholding is finding and then showing, of either reading; and the stretches are what is shown. */
static void in_turn(const reading *by) {
    static uint8_t marks[SHORT], both[SHORT];
    static uint32_t numbers[SPAN * SHORT];
    screen_case row = random_bulletin();
    mark_pieces(by, &row, marks);
    foringamo_spans spans = by->find(row.bulletin, row.length, row.flags, row.lines, found, sizeof found / sizeof *found);
    foringamo_written w = foringamo_show(row.bulletin, row.length, found, SPAN * spans.count, shown, sizeof shown);
    foringamo_shown r = by->withhold_into(row.bulletin, row.length, row.flags, row.lines, numbers, SPAN * spans.count, both, w.length);
    CHECK(is_found(spans, 0, spans.count) && finds(by, &row, marks, spans.count) && withholds(by, &row, marks));
    CHECK(is_written(w, 0, w.length) && is_shown(r, 0, w.length, spans.count));
    CHECK(memcmp(both, shown, w.length) == 0 && memcmp(numbers, found, SPAN * spans.count * sizeof *found) == 0);
    CHECK(join(&row, spans.count) == w.length && memcmp(joined, shown, w.length) == 0);
    CHECK(is_part(foringamo_stretch(row.bulletin, row.length, found, SPAN * spans.count, spans.count + 1), 0, 0));
    if (spans.count > 0) {
        CHECK(by->withhold_into(row.bulletin, row.length, row.flags, row.lines, numbers, SPAN * spans.count - 1, both, w.length).refusal == 7);
    }
}

/* A list with a number or two altered, or cut off, is shown or refused by the rule. */
static void altered(void) {
    screen_case row = random_bulletin();
    foringamo_spans spans = rust.find(row.bulletin, row.length, row.flags, row.lines, found, sizeof found / sizeof *found);
    size_t count = SPAN * spans.count;
    for (size_t times = below(3); times > 0 && count > 0; times--) {
        uint32_t *number = &found[below(count)];
        *number = below(4) == 0 ? (uint32_t)below(row.length + 2) : *number + (uint32_t)below(3) - 1;
    }
    if (count > 0 && below(4) == 0) {
        count -= below(SPAN);
    }
    foringamo_written w = foringamo_show(row.bulletin, row.length, found, count, shown, sizeof shown);
    int good = are_spans(found, count, row.length);
    CHECK(w.refusal == (good ? 0 : 12));
    if (good) {
        CHECK(join(&row, count / SPAN) == w.length && memcmp(joined, shown, w.length) == 0);
    } else {
        CHECK(is_part(foringamo_stretch(row.bulletin, row.length, found, count, below(4)), 0, 0));
    }
}

/* As many spans as a bulletin of one line can have: a tag takes three bytes. */
static void most_spans(const reading *by) {
    enum { TAGS = 333333 };
    static uint32_t numbers[SPAN * TAGS + 1];
    repeat(repeat(big, "x", 1), "<a>", TAGS);
    numbers[0] = numbers[SPAN * TAGS] = NUMBER_FILL;
    CHECK(is_found(by->find(big, LIMIT, zeros, 1, numbers, SPAN * TAGS - 1), 7, 0) && numbers[0] == NUMBER_FILL);
    CHECK(is_found(by->find(big, LIMIT, zeros, 1, numbers, SPAN * TAGS + 1), 0, TAGS));
    int good = numbers[SPAN * TAGS] == NUMBER_FILL;
    for (size_t n = 0; n < TAGS; n++) {
        good &= numbers[SPAN * n] == 1 + 3 * n && numbers[SPAN * n + 1] == 4 + 3 * n && numbers[SPAN * n + 2] == 0;
    }
    CHECK(good);
    fill();
    CHECK(is_written(foringamo_show(big, LIMIT, numbers, SPAN * TAGS, out, 1), 0, 1) && has(TEXT("x")));
    CHECK(is_part(foringamo_stretch(big, LIMIT, numbers, SPAN * TAGS, TAGS), LIMIT, 0));
    memset(big, 0, sizeof big);
}

int main(void) {
    enum { RANDOM = 4000 };
    layout();
    find(&rust);
    find(&standard);
    withhold(&rust);
    withhold(&standard);
    show();
    stretches();
    for (int i = 0; i < RANDOM; i++) {
        in_turn(&rust);
        in_turn(&standard);
        altered();
    }
    most_spans(&rust);
    most_spans(&standard);
    return finish();
}
