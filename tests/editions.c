/*
 * Editions of a bulletin, in both readings: any number of its private pieces have others in their place, and both show the same. Named cases, with what they show
 * worked out by hand; then pseudo-random bulletins, in which a model of this file finds the private pieces (docs/SCOPE.md, Private pieces) over the pieces that the
 * scans find; and editions that miss a premise, of which some must show otherwise. A line for each check that fails, a line for each reading with the numbers of what
 * was swapped, and a last one, 'N passed, M failed'.
 */
#include <ctype.h>

#include "bulletins.h"

/* ---- private pieces */

/* An opening and its closer; behind the opening of a declaration comes a letter. */
typedef struct {
    const char *opening;
    const char *closer;
    int has_letter;
} body_form;

enum { FORMS = 4 };
static const body_form forms[FORMS] = {{"<!--", "-->", 0}, {"<?", "?>", 0}, {"<!", ">", 1}, {"<![CDATA[", "]]>", 0}};

static const uint8_t not_private[] = {'<', '>', '"', '\'', '?', ']', '-', '\r', '\n'};

/* How many of these stand in no line ending. */
enum { IN_A_LINE = sizeof not_private - 2 };

static int is_private(uint8_t byte) {
    return memchr(not_private, byte, sizeof not_private) == NULL;
}

/* Behind the private bytes at an index. */
static size_t behind_private(const screen_case *row, size_t index) {
    while (index < row->length && is_private(row->bulletin[index])) {
        index++;
    }
    return index;
}

static int stands_at(const screen_case *row, size_t index, const char *bytes) {
    size_t length = strlen(bytes);
    return length <= row->length - index && memcmp(row->bulletin + index, bytes, length) == 0;
}

/* A body with its opening, which begins at start, and its closer, which ends at stop. */
typedef struct {
    int form;
    size_t start;
    size_t first;
    size_t last;
    size_t stop;
} private_body;

/* Finds the body of a form whose opening begins at an index: private bytes, and right behind them the closer. */
static int is_body_of(const screen_case *row, size_t index, int form, private_body *body) {
    size_t first = index + strlen(forms[form].opening);
    if (!stands_at(row, index, forms[form].opening)) {
        return 0;
    }
    if (forms[form].has_letter) {
        if (first == row->length || !isalpha(row->bulletin[first])) {
            return 0;
        }
        first++;
    }
    size_t last = behind_private(row, first);
    *body = (private_body){form, index, first, last, last + strlen(forms[form].closer)};
    return stands_at(row, last, forms[form].closer);
}

static int is_body(const screen_case *row, size_t index, private_body *body) {
    for (int form = 0; form < FORMS; form++) {
        if (is_body_of(row, index, form, body)) {
            return 1;
        }
    }
    return 0;
}

/* Behind the private line at an index and its LF; the index itself where there is none, or where LF does not end the line before. */
static size_t behind_line(const screen_case *row, size_t index) {
    size_t stop = behind_private(row, index);
    int begins = index > 0 && row->bulletin[index - 1] == '\n';
    return begins && stop < row->length && row->bulletin[stop] == '\n' ? stop + 1 : index;
}

/* The piece that holds the bytes from one index to another, or NULL. */
static const screen_piece *holder_of(const piece_list *list, size_t start, size_t stop) {
    for (size_t i = 0; i < list->count; i++) {
        if (list->pieces[i].start <= start && stop <= list->pieces[i].stop) {
            return &list->pieces[i];
        }
    }
    return NULL;
}

/* The last kind of block that has a closer. */
enum { LAST_CLOSING = 5 };

/* Whether a piece is a closed block, and an index is behind its first line's first byte. */
static int encloses(const screen_piece *piece, size_t start) {
    return piece->kind != 0 && piece->kind <= LAST_CLOSING && piece->closed && piece->start < start;
}

/* ---- editions */

/* What is swapped: private pieces that are withheld, and private bytes put in; or what misses one of these. */
typedef enum {
    AS_ASKED,
    NOT_WITHHELD, /* bodies that no piece holds */
    NOT_PRIVATE,  /* each body and line put in has one byte that is not private */
    NOT_ENCLOSED, /* lines that a piece holds, but not within a closed block */
} premises;

/* What was swapped, in one edition or in many. */
typedef struct {
    size_t pairs;
    size_t several;                /* pairs with two pieces and more */
    size_t bodies[FORMS];          /* of each form */
    size_t runs[LAST_CLOSING + 1]; /* of lines, in a block of each kind; of kind 0 in any other piece */
    size_t behind_runs;            /* runs of lines that begin where another ends */
} tally;

static size_t bodies_of(const tally *swapped) {
    size_t sum = 0;
    for (int form = 0; form < FORMS; form++) {
        sum += swapped->bodies[form];
    }
    return sum;
}

static size_t runs_of(const tally *swapped) {
    size_t sum = 0;
    for (int kind = 0; kind <= LAST_CLOSING; kind++) {
        sum += swapped->runs[kind];
    }
    return sum;
}

/* Adds what was swapped in an edition, and gives whether anything was. */
static int add(tally *all, const tally *swapped) {
    size_t pieces = bodies_of(swapped) + runs_of(swapped);
    all->pairs += pieces > 0;
    all->several += pieces > 1;
    for (int form = 0; form < FORMS; form++) {
        all->bodies[form] += swapped->bodies[form];
    }
    for (int kind = 0; kind <= LAST_CLOSING; kind++) {
        all->runs[kind] += swapped->runs[kind];
    }
    all->behind_runs += swapped->behind_runs;
    return pieces > 0;
}

/* The most private bytes of a body or line that is put in; of a byte of bulletin one become at most so many, a further byte and an LF. */
enum { LONGEST = 200, EDITION_ROOM = SHORT * (LONGEST + 2) };

/* Of so many pieces some are swapped. */
enum { OF_PIECES = 4 };

/* An edition in the making: how it is made, of which bulletin, with which pieces, and what there is of it. */
typedef struct {
    premises asked;
    size_t share;   /* of OF_PIECES pieces so many are swapped */
    size_t longest; /* the most private bytes that are put in for one */
    size_t lines;   /* the most lines of a run */
    const screen_case *one;
    piece_list list;
    size_t run_stop; /* in bulletin one, behind the last run of lines */
    tally swapped;
    size_t length;
    uint8_t bytes[EDITION_ROOM];
} edition;

static void put(edition *two, uint8_t byte) {
    two->bytes[two->length++] = byte;
}

static void put_part(edition *two, size_t start, size_t stop) {
    for (size_t i = start; i < stop; i++) {
        put(two, two->one->bulletin[i]);
    }
}

/* Private bytes that mean something elsewhere, and some that do not. */
static const uint8_t telling[] = {'\\', '\\', ' ', ' ', '\t', 0, 255, '=', '/', '[', '!', 'a', 'Z', '9'};

/* A private byte: any of them, or one of these. */
static uint8_t private_byte(void) {
    uint8_t byte = (uint8_t)below(256);
    return below(3) == 0 && is_private(byte) ? byte : telling[below(sizeof telling)];
}

static void put_private(edition *two) {
    for (size_t count = below(two->longest + 1); count > 0; count--) {
        put(two, private_byte());
    }
    if (two->asked == NOT_PRIVATE) {
        put(two, not_private[below(IN_A_LINE)]);
    }
}

static int is_chosen(const edition *two) {
    return below(OF_PIECES) < two->share;
}

static int may_swap_body(const edition *two, const private_body *body) {
    const screen_piece *holder = holder_of(&two->list, body->start, body->stop);
    switch (two->asked) {
    case NOT_WITHHELD:
        return holder == NULL;
    case NOT_ENCLOSED:
        return 0;
    default:
        return holder != NULL;
    }
}

static int may_swap_lines(const edition *two, size_t start, size_t stop) {
    const screen_piece *holder = holder_of(&two->list, start, stop);
    switch (two->asked) {
    case NOT_WITHHELD:
        return 0;
    case NOT_ENCLOSED:
        return holder != NULL && !encloses(holder, start);
    default:
        return holder != NULL && encloses(holder, start);
    }
}

/* Puts another body in the place of the one at an index, if one is swapped there; gives the index behind its closer, or the same. */
static size_t swap_body(edition *two, size_t index) {
    private_body body;
    if (!is_body(two->one, index, &body) || !may_swap_body(two, &body) || !is_chosen(two)) {
        return index;
    }
    put_part(two, index, body.first);
    put_private(two);
    put_part(two, body.last, body.stop);
    two->swapped.bodies[body.form]++;
    return body.stop;
}

/* Likewise a run of one or more lines. */
static size_t swap_lines(edition *two, size_t index) {
    size_t stop = index, next = behind_line(two->one, index);
    if (next == index || !may_swap_lines(two, index, next) || !is_chosen(two)) {
        return index;
    }
    for (size_t lines = 1 + below(two->lines); lines > 0 && next != stop && may_swap_lines(two, index, next); lines--) {
        put_private(two);
        put(two, '\n');
        stop = next;
        next = behind_line(two->one, stop);
    }
    const screen_piece *holder = holder_of(&two->list, index, stop);
    two->swapped.runs[encloses(holder, index) ? holder->kind : 0]++;
    two->swapped.behind_runs += two->run_stop == index;
    two->run_stop = stop;
    return stop;
}

/* Makes an edition of a bulletin, in the way that its first four fields say. */
static void make(edition *two, const reading *by, const screen_case *one) {
    list_pieces(by, one, &two->list);
    two->one = one;
    two->length = 0;
    two->run_stop = 0;
    two->swapped = (tally){0};
    size_t index = 0;
    while (index < one->length) {
        size_t stop = swap_body(two, index);
        if (stop == index) {
            stop = swap_lines(two, index);
        }
        if (stop == index) {
            put(two, one->bulletin[stop++]);
        }
        index = stop;
    }
}

/* A bulletin with each body and line that is private and withheld made empty; gives how many there are. Editions of one another become the same. */
static size_t make_empty(edition *empty, const reading *by, const screen_case *row) {
    empty->asked = AS_ASKED;
    empty->share = OF_PIECES;
    empty->longest = 0;
    empty->lines = 1;
    make(empty, by, row);
    return bodies_of(&empty->swapped) + runs_of(&empty->swapped);
}

/* The edition as a bulletin, with the flags of the other. */
static screen_case row_of(const edition *two) {
    screen_case row = *two->one;
    row.bulletin = two->bytes;
    row.length = two->length;
    return row;
}

/* ---- named cases */

/* A bulletin, an edition of it, their flags as digits (none: all are 0), and what both show in one reading, or in both. The backslash in `<?\?>` is C's alone: without
   it there would be a trigraph. */
typedef struct {
    const char *what;
    const reading *by;
    const char *one;
    const char *two;
    const char *flags;
    const char *shown;
    size_t pieces;
} edition_case;

static const edition_case edition_cases[] = {
    {"two bodies in one paragraph", NULL, "a <!--x--> b <?y?> c", "a <!-- longer --> b <?\?> c", "", "a  b  c", 2},
    {"bodies on two lines of one paragraph", NULL, "a <!--x-->\nb <?y?>c", "a <!---->\nb <?yyy?>c", "", "a \nb c", 2},
    {"bodies that touch", NULL, "a<!--x--><?y?>b", "a<!--xx--><?\?>b", "", "ab", 2},
    {"bodies that touch, in a block", NULL, "<!--x--><?y?>\nok", "<!----><?long?>\nok", "", "\nok", 1},
    {"all four forms at once", NULL, "a <!--x--> <?x?> <!Ax> <![CDATA[x]]> b", "a <!----> <?yy?> <!A> <![CDATA[[long[]]> b", "", "a     b", 4},
    {"an empty body becomes long, and a long one empty", NULL, "a <!----> b <?longlong?> c", "a <!--longlong--> b <?\?> c", "", "a  b  c", 2},
    {"the reverse", NULL, "a <!--longlong--> b <?\?> c", "a <!----> b <?longlong?> c", "", "a  b  c", 2},
    {"shorter than with either alone", NULL, "a <!--xxxx--> b <?yyyy?> c", "a <!----> b <?\?> c", "", "a  b  c", 2},
    {"longer than with either alone", NULL, "a <!----> b <!Z> c", "a <!--xxxx--> b <!Z yyyy> c", "", "a  b  c", 2},
    {"behind four spaces", NULL, "    <!--x--> <?y?>", "    <!----> <?yy?>", "", "     ", 2},
    {"behind CR", NULL, "a <!--x-->\rb <?y?>c", "a <!--xxx-->\rb <?\?>c", "", "a \rb c", 2},

    {"in one tag's value", NULL, "a <b c=\"<!--x--><?y?>\">d", "a <b c=\"<!----><?long=/er?>\">d", "", "a d", 1},
    {"in two values of one tag", NULL, "a <b c=\"<!--x-->\" d='<!Ay>'>e", "a <b c=\"<!--=/-->\" d='<!A[[>'>e", "", "a e", 1},
    {"in a tag of three lines", NULL, "a <b\nc='<!--x-->'\nd=\"<?y?>\">e", "a <b\nc='<!---->'\nd=\"<?yyy?>\">e", "", "a e", 1},
    {"behind odd runs of backslashes in a value", NULL, "a <b c=\"\\<!--x-->\\\\\\<?y?>\">d", "a <b c=\"\\<!--yy-->\\\\\\<?\?>\">d", "", "a d", 1},
    {"backslashes put in", NULL, "a <!--x--><?y?>b", "a <!--\\--><?\\\\\\?>b", "", "a b", 2},
    {"behind a tag that a backslash keeps", NULL, "\\<b> <!--x-->\\\\<?y?>", "\\<b> <!---->\\\\<?yy?>", "", "\\<b> \\\\", 2},
    {"in a remark", NULL, "a <!-- <?x?> <!Ay> -->b", "a <!-- <?xx?> <!A> -->b", "", "a b", 1},
    {"in an instruction", NULL, "a <? <!--x--> <![CDATA[y]]> ?>b", "a <? <!----> <![CDATA[[y]]> ?>b", "", "a b", 1},
    {"in a CDATA section", NULL, "a <![CDATA[ <!--x--> <?y?> ]]>b", "a <![CDATA[ <!--xx--> <?=?> ]]>b", "", "a b", 1},
    {"behind a broken CDATA opening", NULL, "a <![CDx <![CDATA[x]]> <?y?> b", "a <![CDx <![CDATA[]]> <?yy?> b", "", "a <![CDx   b", 2},

    {"a body and lines in one block", NULL, "<!--\nx\ny\n--><?z?>\nok", "<!--\nlong\n\n--><?0?>\nok", "", "\nok", 1},
    {"lines on both sides of a body", NULL, "<?\na\n<!--b-->\nc\n?>\nok", "<?\n\n<!--bbb-->\ncc\n?>\nok", "", "\nok", 1},
    {"lines right behind lines", NULL, "<?\na\nb\nc\nd\n?>\nok", "<?\n\nlonger\n\ndd\n?>\nok", "", "\nok", 1},
    {"lines apart", NULL, "<script>\na\n<b>\nc\n</script>\nok", "<script>\naaa\n<b>\n\n</script>\nok", "", "\nok", 1},
    {"private lines become empty", NULL, "<!--\nx\n>\ny\n-->\nok", "<!--\n\n>\n\n-->\nok", "", "\nok", 1},
    {"empty lines become private ones", NULL, "<!--\n\n>\n\n-->\nok", "<!--\n=\n>\n \t\n-->\nok", "", "\nok", 1},
    {"in a block behind three spaces", NULL, "   <?\nx\n>\ny\n?>\nok", "   <?\n\n>\nyy\n?>\nok", "", "\nok", 1},
    {"in two blocks, one behind the other", NULL, "<!--\na\n-->\n<?\nb\n?>\nok", "<!--\n\n-->\n<?\nbb\n?>\nok", "", "\n\nok", 2},
    {"lines behind CR LF", NULL, "<!--\r\nx\n>\r\ny\n-->\r\nok", "<!--\r\n\n>\r\nyy\n-->\r\nok", "", "\r\nok", 1},
    {"in a block that nothing closes", NULL, "<!--\n<?x?>\n<!Ay>", "<!--\n<?\?>\n<!Ayyy>", "", "", 1},

    {"in a block of kind 1", NULL, "<pre><!--x-->\nl\nm\n</pre><?y?>\nok", "<pre><!---->\n\nmm\n</pre><?yy?>\nok", "", "\nok", 1},
    {"in a block of kind 2", NULL, "<!-- <?x?>\nl\nm\n<!Ay> -->\nok", "<!-- <?\?>\nll\n\n<!Ayy> -->\nok", "", "\nok", 1},
    {"in a block of kind 3", NULL, "<? <!--x-->\nl\nm\n<![CDATA[y]]> ?>\nok", "<? <!---->\n\n=\n<![CDATA[yy]]> ?>\nok", "", "\nok", 1},
    {"in a block of kind 4", NULL, "<!A\nl\nm\n<!--x--><?y?>\nok", "<!A\nlll\n\n<!----><?yy?>\nok", "", "\nok", 1},
    {"in a block of kind 4, on one line", NULL, "<!Ax> <!By>\nok", "<!A> <!Byy>\nok", "", "\nok", 1},
    {"in a block of kind 5", NULL, "<![CDATA[<!--x-->\nl\nm\n<?y?>]]>\nok", "<![CDATA[<!---->\nll\n\n<?\?>]]>\nok", "", "\nok", 1},
    {"in a block of kind 6", NULL, "<div><!--x-->\n<?y?> z\n\nok", "<div><!---->\n<?yyy?> z\n\nok", "", "\n\nok", 1},
    {"in a block of kind 7", NULL, "<i a='<!Bx>'>\n<![CDATA[y]]>\n\nok", "<i a='<!B>'>\n<![CDATA[[yy]]>\n\nok", "", "\n\nok", 1},
    {"in paragraphs and blocks", NULL, "a <!--x-->\n\n<?\nl\nm\n?> <!By>\nb <![CDATA[z]]>c\n\n<div>\n<?w?>\n\nd\\<b <i e='<!--v-->'>f",
     "a <!---->\n\n<?\n\nmm\n?> <!Byy>\nb <![CDATA[]]>c\n\n<div>\n<?www?>\n\nd\\<b <i e='<!--=-->'>f", "", "a \n\n\nb c\n\n\n\nd\\<b f", 5},

    {"a line that is not lazy", NULL, "<div><!--x-->\nw <?y?> z", "<div><!---->\nw <?yy?> z", "", "", 1},
    {"a lazy line", NULL, "<div><!--x-->\nw <?y?> z", "<div><!---->\nw <?yy?> z", "01", "\nw  z", 2},
    {"lines behind a lazy first line", NULL, "p\n<!--\nx\n>\ny\n-->\nok", "p\n<!--\n\n>\nyy\n-->\nok", "0100000", "p\n\nok", 1},
    {"a line that interrupts nothing", NULL, "a\n<b c='<!--x--><?y?>'>\nd", "a\n<b c='<!----><?=?>'>\nd", "", "a\n", 1},
    {"a line that may interrupt", NULL, "a\n<b c='<!--x--><?y?>'>\nd", "a\n<b c='<!----><?=?>'>\nd", "020", "a\n\nd", 1},
    {"a lazy line that may interrupt, F6", &rust, "a\n<b c='<!--x--><?y?>'>\nd", "a\n<b c='<!----><?=?>'>\nd", "030", "a\n", 1},
    {"a lazy line that may interrupt", &standard, "a\n<b c='<!--x--><?y?>'>\nd", "a\n<b c='<!----><?=?>'>\nd", "030", "a\n\nd", 1},

    {"bodies in what T1 makes no tag", &rust, "a <b c=\"<!--x--><?y?>\" d=e/f>g", "a <b c=\"<!----><?yy?>\" d=e/f>g", "", "a <b c=\"\" d=e/f>g", 2},
    {"bodies in that tag", &standard, "a <b c=\"<!--x--><?y?>\" d=e/f>g", "a <b c=\"<!----><?yy?>\" d=e/f>g", "", "a g", 1},
    {"bodies in a block that F1 leaves open", &rust, "<![CDATA[]]]>\nx <!--y--> <?z?>w", "<![CDATA[]]]>\nx <!----> <?zz?>w", "", "", 1},
    {"bodies behind that block", &standard, "<![CDATA[]]]>\nx <!--y--> <?z?>w", "<![CDATA[]]]>\nx <!----> <?zz?>w", "", "\nx  w", 3},
    {"lines in a block that F1 leaves open", &rust, "<![CDATA[]]]>\nx\n>\ny\n]]>\nok", "<![CDATA[]]]>\n\n>\nyy\n]]>\nok", "", "\nok", 1},
    {"bodies behind what F4 makes no block", &rust, "<i b=c/d>\n<!--x--> <?y?>\n\nok", "<i b=c/d>\n<!----> <?yy?>\n\nok", "", "<i b=c/d>\n\n\nok", 1},
    {"bodies in that block", &standard, "<i b=c/d>\n<!--x--> <?y?>\n\nok", "<i b=c/d>\n<!----> <?yy?>\n\nok", "", "\n\nok", 1},
};

/* Flags of digits, or all 0; in a buffer that the next call takes again. */
static screen_case flagged(const char *bulletin, const char *digits, const char *shown) {
    static uint8_t flags[EDITION_ROOM];
    screen_case row = case_of(bulletin, shown);
    if (*digits != 0) {
        row.flags = flags;
        row.lines = strlen(digits);
        for (size_t i = 0; i < row.lines; i++) {
            flags[i] = (uint8_t)(digits[i] - '0');
        }
    }
    return row;
}

/* What a buffer holds before run one; FILL before run two. */
enum { OTHER_FILL = 0x11 };

/* Whether finding and withholding give what a case says, in room that just suffices, in a list and a buffer that hold these bytes before, and keep them behind. */
static int gives(const reading *by, const screen_case *row, size_t pieces, uint8_t before) {
    static uint32_t list[SPAN * EDITION_ROOM], found[SPAN * EDITION_ROOM];
    static uint8_t shown[EDITION_ROOM];
    size_t numbers = SPAN * pieces;
    memset(list, before, sizeof list);
    memset(found, before, sizeof found);
    memset(shown, before, sizeof shown);
    foringamo_spans spans = by->find(row->bulletin, row->length, row->flags, row->lines, found, numbers);
    foringamo_shown r = by->withhold_into(row->bulletin, row->length, row->flags, row->lines, list, numbers, shown, row->shown_length);
    const uint8_t *behind = (const uint8_t *)(list + numbers);
    return spans.refusal == 0 && spans.count == pieces && is_shown(r, 0, row->shown_length, pieces) && memcmp(shown, row->shown, row->shown_length) == 0 &&
           shown[row->shown_length] == before && *behind == before && memcmp(list, found, sizeof list) == 0;
}

/* The model takes the two for editions of one another, with two pieces or more, and both show what the case says. */
static void named(const reading *by, const edition_case *test) {
    static edition one, two;
    screen_case row = flagged(test->one, test->flags, test->shown);
    screen_case other = flagged(test->two, test->flags, test->shown);
    size_t pieces = make_empty(&one, by, &row);
    int good = pieces > 1 && make_empty(&two, by, &other) == pieces && one.length == two.length && memcmp(one.bytes, two.bytes, one.length) == 0;
    check(good && row.lines == other.lines, __FILE__, __LINE__, test->what);
    check(gives(by, &row, test->pieces, OTHER_FILL) && gives(by, &other, test->pieces, FILL), __FILE__, __LINE__, test->what);
}

static void all_named(const reading *by) {
    for (size_t i = 0; i < sizeof edition_cases / sizeof *edition_cases; i++) {
        if (edition_cases[i].by == NULL || edition_cases[i].by == by) {
            named(by, &edition_cases[i]);
        }
    }
}

/* Two long bodies in place of short ones: an edition of as many bytes as a bulletin can have; with one more it alone is refused. */
static void longest(const reading *by) {
    enum { HALF = LIMIT / 2 };
    screen_case row = case_of("a <!--x--> <?y?>b", "a  b");
    screen_case other = row;
    uint8_t *end = repeat(repeat(repeat(big, "a <!--", 1), "x", HALF), "--> <?", 1);
    end = repeat(repeat(end, "y", (size_t)(big + LIMIT - end) - strlen("?>b")), "?>b", 1);
    other.bulletin = big;
    other.length = (size_t)(end - big);
    CHECK(other.length == LIMIT);
    CHECK(gives(by, &row, 2, OTHER_FILL) && gives(by, &other, 2, FILL));
    repeat(end - strlen("?>b"), "y?>b", 1);
    CHECK(by->withhold(big, LIMIT + 1, zeros, 1, out, ROOM).refusal == 1);
}

/* ---- pseudo-random editions */

/* Parts that have many private pieces in them: openings, closers, bodies, lines, blocks of each kind, tags with values, and backslashes. */
static const char *const parts[] = {
    "<!--", "<?", "<!A", "<![CDATA[", "-->", "?>", ">", "]]>", "<!--x-->", "<!---->", "<?y z?>", "<?\?>", "<!Bw>", "<!c>", "v]]>", "<![CDATA[u]]>",
    "<![CDATA[]]>", "x", "y z", "=/[!", " ", "\t", "\\", "\\", "\\\\", "\\<", "\n", "\n", "\n", "\n\n", "\r\n", "\r", "\nx\n", "\nx\n\n", "y\nz\n", "\n \nx\n",
    "\n<!--\n", "\n-->\n", "\n<?\n", "\n?>\n", "\n<!A\n", "\n>\n", "\n<pre>\n", "\n</pre>\n", "<![CDATA[\n", "\n]]>\n", "\n<div>\n", "\n<i>\n",
    "\n<script", "</style>", "<b c=\"", "\">", "<i d='", "'>", "<a ", "=", "/>", "\n\n",
};

enum { PARTS = sizeof parts / sizeof *parts };

/* One of three bulletins is of the parts that all programs share. */
static screen_case random_one(void) {
    return below(3) == 0 ? random_bulletin() : random_bulletin_of(parts, PARTS);
}

/* An edition of it: often with all pieces swapped, and now and then with all of them empty, or with long ones. */
static void random_edition(edition *two, const reading *by, const screen_case *row, premises asked) {
    enum { SOME = 12, LONG_IN = 16, LINES = 4 };
    two->asked = asked;
    two->share = below(2) == 0 ? OF_PIECES : 1 + below(OF_PIECES - 1);
    two->longest = below(LONG_IN) == 0 ? LONGEST : below(SOME + 1);
    two->lines = LINES;
    make(two, by, row);
}

/* Withholding with room that always suffices, in a buffer that holds this byte before. */
static foringamo_shown run(const reading *by, const screen_case *row, uint8_t before, uint8_t *shown) {
    memset(shown, before, row->length);
    return by->withhold(row->bulletin, row->length, row->flags, row->lines, shown, row->length);
}

/* Whether neither run is refused, and both show the same bytes, length and count. */
static int show_alike(const reading *by, const screen_case *one, const screen_case *two) {
    static uint8_t first[EDITION_ROOM], second[EDITION_ROOM];
    foringamo_shown a = run(by, one, OTHER_FILL, first), b = run(by, two, FILL, second);
    return a.refusal == 0 && is_shown(b, 0, a.length, a.pieces) && memcmp(first, second, a.length) == 0;
}

static void print_bytes(const char *what, const uint8_t *bytes, size_t length) {
    printf("    %s: ", what);
    for (size_t i = 0; i < length; i++) {
        printf(isprint(bytes[i]) ? "%c" : "\\x%02x", bytes[i]);
    }
    printf("\n");
}

/* Where a pair differs, it is printed behind the line that says so. */
static void check_pair(int alike, const reading *by, const screen_case *one, const screen_case *two) {
    check(alike, __FILE__, __LINE__, by->name);
    if (!alike) {
        print_bytes("flags", one->flags, one->lines);
        print_bytes("bulletin", one->bulletin, one->length);
        print_bytes("edition", two->bulletin, two->length);
    }
}

/* Of so many pseudo-random bulletins: in a reading, what was swapped, and how many pairs do not show alike. */
static size_t count_differing(const reading *by, premises asked, size_t rounds, tally *all) {
    static edition two;
    size_t differing = 0;
    for (size_t round = 0; round < rounds; round++) {
        screen_case row = random_one();
        random_edition(&two, by, &row, asked);
        if (add(all, &two.swapped)) {
            screen_case other = row_of(&two);
            int alike = show_alike(by, &row, &other);
            differing += !alike;
            if (asked == AS_ASKED) {
                check_pair(alike, by, &row, &other);
            }
        }
    }
    return differing;
}

/* Every sort of piece is swapped, and no pair differs. */
static void all_random(const reading *by) {
    enum { ROUNDS = 48000, FEWEST_PAIRS = 20000 };
    tally all = {0};
    CHECK(count_differing(by, AS_ASKED, ROUNDS, &all) == 0);
    CHECK(all.pairs >= FEWEST_PAIRS && all.several >= FEWEST_PAIRS / 2 && all.behind_runs > 0 && all.runs[0] == 0);
    for (int form = 0; form < FORMS; form++) {
        CHECK(all.bodies[form] > 0);
    }
    for (int kind = 1; kind <= LAST_CLOSING; kind++) {
        CHECK(all.runs[kind] > 0);
    }
    printf("%s: %zu pairs, of them %zu with several pieces; %zu bodies and %zu runs of lines swapped\n", by->name, all.pairs, all.several, bodies_of(&all),
           runs_of(&all));
}

/* Without one of the premises some pairs differ. */
static void controls(const reading *by) {
    enum { ROUNDS = 2000 };
    static const premises missing[] = {NOT_WITHHELD, NOT_PRIVATE, NOT_ENCLOSED};
    for (size_t i = 0; i < sizeof missing / sizeof *missing; i++) {
        tally all = {0};
        size_t differing = count_differing(by, missing[i], ROUNDS, &all);
        CHECK(all.pairs > 0 && differing > 0);
    }
}

/* Nor do these show alike: what differs ends its line in LF and is private, but LF does not end the line before, and it is no whole line. */
static void part_of_a_line(const reading *by) {
    screen_case row = case_of("<pre x\n</pre>", ""), other = case_of("<prey\n</pre>", "<prey\n");
    CHECK(!show_alike(by, &row, &other));
    CHECK(gives(by, &row, 1, OTHER_FILL) && gives(by, &other, 1, FILL));
}

/* What is put in is private, and the bytes that are not are those of docs/SCOPE.md. */
static void bytes(void) {
    int others = 0;
    for (int byte = 0; byte < 256; byte++) {
        others += !is_private((uint8_t)byte);
        CHECK(is_private(private_byte()));
    }
    CHECK(others == 9);
    for (int i = 0; i < IN_A_LINE; i++) {
        CHECK(not_private[i] != '\r' && not_private[i] != '\n');
    }
}

int main(void) {
    bytes();
    all_named(&rust);
    all_named(&standard);
    longest(&rust);
    longest(&standard);
    all_random(&rust);
    all_random(&standard);
    controls(&rust);
    controls(&standard);
    part_of_a_line(&rust);
    part_of_a_line(&standard);
    return finish();
}
