/*
 * The standard's reading against CommonMark's own parser in C, libcmark, on random texts. compare/cmark.sh builds and runs this.
 *
 *     cmark [--seed N] [--count N]
 *
 * Five kinds of comparison, each on N texts: the inline pieces of paragraphs; the blocks and inline pieces of bulletins; withholding and finding, against the pieces
 * that both scans find; blocks in a block quote, some lines of which are lazy (flag 1); and blocks behind a paragraph in a block quote, without its marker (flag 3).
 * A text is skipped where a line may begin a construct of Markdown that the library does not know. A `<` of a paragraph that a backslash escapes begins no
 * piece; the standard's rule, by which a backslash and the punctuation behind it go together, is followed here for all readings, the scans not looking back.
 *
 * libcmark departs from CommonMark 0.31.2 in some places, the list `classes`, and there says nothing of the library. So there is a third reading, rules.h, by the
 * standard's rules with any of these departures. Without them it must find in every text what the library finds. Where libcmark finds something else, it must
 * find with all departures that libcmark has, in the whole text, what libcmark finds; the class is the departure that by itself changes the first piece that
 * differs. Every other difference is a failure.
 *
 * For each kind a line with its numbers, and for each class that was met, or for differences of none, a line with a short text. The last line is
 * 'N passed, M failed', one for each kind.
 */
#include <cmark.h>
#include <inttypes.h>
#include <stdio.h>
#include <stdlib.h>
#include <string.h>

#include "samples.h"

/* Pieces of a text at most: none is empty. */
#define PIECES ROOM

/* How many numbers a span has: start, stop, and 0 for inline or 1 for a block. */
#define SPAN 3

/* The readings: the standard's rules, with departures or without, and the library's. */
#define STANDARD 0
#define LIBRARY (1U << 31)

/* What the run begins with, and how many texts of each kind it compares, unless told. */
#define SEED 1
#define SAMPLES 400000

/* The marker of a block quote, as wide as a tab stop, so that tabs are behind it as wide as without it. */
#define QUOTE "  > "

/* The carry of an inline scan, which the standard takes no notice of. */
#define MOST_CARRY 5

typedef struct {
    int is_block;
    size_t start;
    size_t stop;
} piece;

/* What a reading finds. */
typedef struct {
    size_t count;
    piece at[PIECES];
    int refused; /* a scan was refused, or has a stop or carry that cannot be */
    int other;   /* a line may begin another construct: not to be compared */
} pieces;

/* What libcmark finds. */
typedef struct {
    cmark_node *document;
    size_t count;
    struct {
        int is_block;
        const char *literal;
    } at[PIECES];
} parsed;

/* Each departure by its bit, and a text that shows whether a libcmark has it. */
static const struct {
    const char *name;
    int kind;
    const char *markdown;
} classes[] = {
    {"inline comments by 0.30: text without > or -> in front, without -- in it, without - at the end", INLINE_TEXTS, "x<!-->"},
    {"inline instructions: ? takes the byte behind it along but for >; where one does not end, none is tried behind it", INLINE_TEXTS, "x<??\?>"},
    {"inline CDATA: ]] takes the byte behind it along but for >", INLINE_TEXTS, "x<![CDATA[]]]>"},
    {"CDATA in any letter case", INLINE_TEXTS, "x<![cdata[]]>"},
    {"inline declarations by 0.29: a name in capital letters, and whitespace behind it", INLINE_TEXTS, "x<!A>"},
    {"declarations as blocks by 0.29: a capital letter", BULLETINS, "<!a"},
    {"form feed and line tabulation are whitespace in tags and behind the names of kinds 1 and 6", INLINE_TEXTS, "x<a\f>"},
    {"source is a name of kind 6, as in 0.30", BULLETINS, "<source"},
    {"search is no name of kind 6, as in 0.30", BULLETINS, "<search"},
    {"open tags with raw names open kind 7", BULLETINS, "<pre/>"},
    {"form feed may stand behind the tag of kind 7", BULLETINS, "<a>\f"},
    {"an autolink of an email address is tried before raw HTML", INLINE_TEXTS, "x<?@a>?>"},
};
#define CLASSES COUNT_OF(classes)

/* The verdict on a text: its class, by number, or one of these. SHARED: as libcmark, but not by the rules. */
enum { SEVERAL = CLASSES, UNKNOWN, SHARED, AGREES, SKIPPED, VERDICTS };

/* Those that the libcmark at hand has. */
static unsigned departures = STANDARD;

/* ---- Reading by the library, or by rule. */

/* Whether a scan has said what cannot be: a refusal, or a stop outside the text or not behind the index. */
static int cannot_be(int refusal, int found, size_t index, size_t stop, size_t limit) {
    return refusal != 0 || (found && (stop <= index || stop > limit));
}

/* Where the block stops that the line at the index opens. */
static size_t block_stop(const text *t, const uint8_t *flags, size_t index, unsigned by, pieces *found) {
    if (by != LIBRARY) {
        return block_by_rule(t, flags, index, by);
    }
    foringamo_block r = foringamo_standard_block_scan(t->bytes, t->length, flags, line_count(t), index);
    if (cannot_be(r.refusal, r.kind != 0, index, r.stop, t->length)) {
        found->refused = 1;
        return NONE;
    }
    return r.kind != 0 ? r.stop : NONE;
}

/* Where the inline piece stops that begins at the index, in the paragraph from start to limit. */
static size_t inline_stop(const text *t, size_t start, size_t limit, size_t index, unsigned by, pieces *found) {
    if (by != LIBRARY) {
        return inline_by_rule(t, index, limit, by);
    }
    uint8_t carry = (uint8_t)(index % (MOST_CARRY + 1));
    foringamo_inline r = foringamo_standard_inline_scan(t->bytes + start, limit - start, index - start, carry);
    if (r.carry != carry || cannot_be(r.refusal, r.found, index - start, r.stop, limit - start)) {
        found->refused = 1;
        return NONE;
    }
    return r.found ? start + r.stop : NONE;
}

static void clear(pieces *found) {
    found->count = 0;
    found->refused = 0;
    found->other = 0;
}

static void add_piece(pieces *found, int is_block, size_t start, size_t stop) {
    found->at[found->count] = (piece){is_block, start, stop};
    found->count++;
}

/* Raw HTML, from the left; none begins at a byte that is escaped. */
static void read_paragraph(const text *t, size_t start, size_t limit, unsigned by, pieces *found) {
    int no_instructions = 0;
    size_t index = start;
    while (index < limit && !found->refused) {
        int opens = t->bytes[index] == '<';
        int is_instruction = begins(t, index, limit, "<?");
        size_t autolink = opens && (by & AUTOLINKS) ? email_autolink(t, index, limit) : NONE;
        int is_tried = opens && autolink == NONE && !(is_instruction && no_instructions);
        size_t stop = is_tried ? inline_stop(t, start, limit, index, by, found) : NONE;
        size_t escaped = escape(t, index, limit);
        if (stop != NONE) {
            add_piece(found, 0, index, stop);
            index = stop;
        } else if (autolink != NONE) {
            index = autolink;
        } else if (escaped != NONE) {
            index = escaped;
        } else {
            no_instructions = no_instructions || (is_instruction && (by & INSTRUCTION_PAIRS));
            index++;
        }
    }
}

/* A bulletin: blocks are tried at each line outside a block, and runs of other lines that are not blank are paragraphs. Sets the flags that this gives. */
static void read_bulletin(const text *t, uint8_t *flags, unsigned by, pieces *found) {
    size_t start = 0; /* of the paragraph that is open, */
    size_t limit = 0; /* and where its last line ends; equal: none is */
    size_t number = 0;
    size_t index = 0;
    memset(flags, 0, ROOM + 1);
    for (;;) {
        size_t end = line_end(t, index);
        int blank = past_blanks(t, index, end) == end;
        int open = start < limit;
        flags[number] = open && !blank ? INTERRUPT : 0;
        size_t stop = block_stop(t, flags, index, by, found);
        if (stop == NONE && !blank) {
            found->other = found->other || begins_other(t, index, end) || (!open && begins_no_paragraph(t, index, end));
            start = open ? start : index;
            limit = end;
        } else {
            read_paragraph(t, start, limit, by, found);
            start = limit;
        }
        if (stop != NONE) {
            add_piece(found, 1, index, stop);
            number += endings_between(t, index, stop);
            end = line_end(t, stop);
        }
        if (end == t->length || found->refused) {
            break;
        }
        number++;
        index = next_line(t, end);
    }
    read_paragraph(t, start, limit, by, found);
}

/* The block at an index, with flags. */
static void read_block(const text *t, const uint8_t *flags, size_t index, unsigned by, pieces *found) {
    size_t stop = block_stop(t, flags, index, by, found);
    if (stop != NONE) {
        add_piece(found, 1, index, stop);
    }
}

/* Whether a lazy line begins with the marker of a block quote, and so is none. */
static int has_marker(const sample *s) {
    const text *t = &s->markdown;
    size_t number = 1;
    for (size_t end = line_end(t, 0); end < t->length; number++) {
        size_t start = next_line(t, end);
        end = line_end(t, start);
        if (s->lazy[number] && byte_at(t, past_blanks(t, start, end)) == '>') {
            return 1;
        }
    }
    return 0;
}

static void read_sample(int kind, const sample *s, unsigned by, pieces *found) {
    static const uint8_t behind_quoted[ROOM + 1] = {0, LAZY | INTERRUPT};
    const text *t = &s->markdown;
    uint8_t flags[ROOM + 1];
    clear(found);
    if (kind == INLINE_TEXTS) {
        found->other = !is_paragraph(t);
        if (!found->other) {
            read_paragraph(t, 0, t->length, by, found);
        }
    } else if (kind == LAZY_LINES) {
        found->other = s->lazy[0] || has_marker(s);
        read_block(t, s->lazy, 0, by, found);
    } else if (kind == LAZY_PARAGRAPHS) {
        found->other = !begins(t, 0, t->length, QUOTED_PARAGRAPH);
        if (!found->other) {
            read_block(t, behind_quoted, strlen(QUOTED_PARAGRAPH), by, found);
        }
    } else {
        read_bulletin(t, flags, by, found);
    }
}

/* ---- Reading by libcmark. */

static void take(parsed *m, cmark_node *node) {
    cmark_node_type type = cmark_node_get_type(node);
    if (type == CMARK_NODE_HTML_BLOCK || type == CMARK_NODE_HTML_INLINE) {
        m->at[m->count].is_block = type == CMARK_NODE_HTML_BLOCK;
        m->at[m->count].literal = cmark_node_get_literal(node);
        m->count++;
    }
}

/* All raw HTML of the document, in order. */
static void take_all(parsed *m) {
    cmark_iter *iterator = cmark_iter_new(m->document);
    cmark_event_type event = cmark_iter_next(iterator);
    for (; event != CMARK_EVENT_DONE; event = cmark_iter_next(iterator)) {
        if (event == CMARK_EVENT_ENTER && m->count < PIECES) {
            take(m, cmark_iter_get_node(iterator));
        }
    }
    cmark_iter_free(iterator);
}

/* Lines as libcmark counts them. */
enum { FIRST_LINE = 1, SECOND_LINE };

/* A block, if the node is one that begins at this line. */
static void take_at_line(parsed *m, cmark_node *node, int line) {
    if (node != NULL && cmark_node_get_type(node) == CMARK_NODE_HTML_BLOCK && cmark_node_get_start_line(node) == line) {
        take(m, node);
    }
}

/* The document of lazy lines: the marker before each line that is not lazy. An empty last line is none to libcmark, and has no marker. */
static size_t quote(const sample *s, uint8_t *document) {
    const text *t = &s->markdown;
    size_t length = 0;
    size_t number = 0;
    for (size_t start = 0; start < t->length; number++) {
        size_t end = line_end(t, start);
        size_t next = end < t->length ? next_line(t, end) : end;
        if (!s->lazy[number]) {
            memcpy(document + length, QUOTE, strlen(QUOTE));
            length += strlen(QUOTE);
        }
        memcpy(document + length, t->bytes + start, next - start);
        length += next - start;
        start = next;
    }
    return length;
}

static cmark_node *parse(const uint8_t *document, size_t length) {
    return cmark_parse_document((const char *)document, length, CMARK_OPT_DEFAULT);
}

static void parse_sample(int kind, const sample *s, parsed *m) {
    static uint8_t document[(ROOM + 1) * sizeof QUOTE];
    const text *t = &s->markdown;
    m->count = 0;
    if (kind == LAZY_LINES) {
        m->document = parse(document, quote(s, document));
        cmark_node *block_quote = cmark_node_first_child(m->document);
        take_at_line(m, block_quote == NULL ? NULL : cmark_node_first_child(block_quote), FIRST_LINE);
    } else if (kind == LAZY_PARAGRAPHS) {
        static const char marker[] = "> ";
        memcpy(document, marker, strlen(marker));
        memcpy(document + strlen(marker), t->bytes, t->length);
        m->document = parse(document, strlen(marker) + t->length);
        take_at_line(m, cmark_node_next(cmark_node_first_child(m->document)), SECOND_LINE);
    } else {
        m->document = parse(t->bytes, t->length);
        take_all(m);
    }
}

/* ---- Comparing. */

/*
 * Whether libcmark's literal is this piece. Its line endings are LF. An inline literal lacks the indentation of a paragraph's lines; a block's has a line
 * ending behind its last line, unless that is the empty one at the end of the text, which is none to libcmark.
 */
static int is_literal(const text *t, const piece *p, const char *literal) {
    size_t index = p->start;
    while (index < p->stop) {
        int ends = is_ending(t->bytes[index]);
        if (*literal++ != (ends ? '\n' : (char)t->bytes[index])) {
            return 0;
        }
        index = ends ? next_line(t, index) : index + 1;
        if (ends && !p->is_block) {
            index = past_blanks(t, index, p->stop);
        }
    }
    int has_empty_line = p->stop == t->length && is_ending(t->bytes[p->stop - 1]);
    return index == p->stop && strcmp(literal, p->is_block && !has_empty_line ? "\n" : "") == 0;
}

/* Whether both have the piece of this number, and it is the same, or neither has. */
static int same_as_parsed(const text *t, const pieces *ours, const parsed *theirs, size_t number) {
    if (number >= ours->count || number >= theirs->count) {
        return number >= ours->count && number >= theirs->count;
    }
    return ours->at[number].is_block == theirs->at[number].is_block && is_literal(t, &ours->at[number], theirs->at[number].literal);
}

static int same_piece(const pieces *a, const pieces *b, size_t number) {
    if (number >= a->count || number >= b->count) {
        return number >= a->count && number >= b->count;
    }
    const piece *p = &a->at[number];
    const piece *q = &b->at[number];
    return p->is_block == q->is_block && p->start == q->start && p->stop == q->stop;
}

static int same_pieces(const pieces *a, const pieces *b) {
    int same = a->count == b->count;
    for (size_t number = 0; same && number < a->count; number++) {
        same = same_piece(a, b, number);
    }
    return same;
}

/* The number of the first piece in which the two differ; behind the last of both where they agree. */
static size_t first_difference(const text *t, const pieces *ours, const parsed *theirs) {
    size_t number = 0;
    while ((number < ours->count || number < theirs->count) && same_as_parsed(t, ours, theirs, number)) {
        number++;
    }
    return number;
}

static int agree(const text *t, const pieces *ours, const parsed *theirs) {
    size_t number = first_difference(t, ours, theirs);
    return number >= ours->count && number >= theirs->count;
}

/* The class of a difference. */
static int explain(int kind, const sample *s, const pieces *ours, const parsed *theirs) {
    size_t number = first_difference(&s->markdown, ours, theirs);
    pieces read;
    read_sample(kind, s, departures, &read);
    if (read.other) {
        return SKIPPED;
    }
    if (!agree(&s->markdown, &read, theirs)) {
        return UNKNOWN;
    }
    for (int class = 0; class < (int)CLASSES; class++) {
        read_sample(kind, s, departures & (1U << class), &read);
        if (!same_piece(ours, &read, number)) {
            return class;
        }
    }
    return SEVERAL;
}

/* What withholding and finding give, each with its list, and the pieces that both scans find. */
typedef struct {
    foringamo_shown shown;
    foringamo_spans found;
    uint32_t shown_spans[SPAN * ROOM];
    uint32_t found_spans[SPAN * ROOM];
    uint8_t out[ROOM];
    pieces ours;
} withheld;

/* Withholds from a text and finds in it. There is room for the whole text, and for as many spans as it has bytes. */
static void withhold(const text *t, withheld *w) {
    uint8_t flags[ROOM + 1];
    clear(&w->ours);
    read_bulletin(t, flags, LIBRARY, &w->ours);
    size_t lines = line_count(t);
    w->shown = foringamo_standard_withhold(t->bytes, t->length, flags, lines, w->shown_spans, SPAN * t->length, w->out, t->length);
    w->found = foringamo_standard_find(t->bytes, t->length, flags, lines, w->found_spans, SPAN * t->length);
}

/* Whether a list has the spans of these pieces. */
static int lists(const uint32_t *spans, const pieces *p) {
    int same = 1;
    for (size_t number = 0; same && number < p->count; number++) {
        const uint32_t *span = spans + SPAN * number;
        same = span[0] == p->at[number].start && span[1] == p->at[number].stop && span[2] == (uint32_t)p->at[number].is_block;
    }
    return same;
}

/* Whether the bytes outside of the pieces, and no others, are shown. */
static int shows_rest(const text *t, const withheld *w) {
    const pieces *ours = &w->ours;
    size_t length = 0;
    size_t index = 0;
    for (size_t number = 0; number <= ours->count; number++) {
        size_t start = number < ours->count ? ours->at[number].start : t->length;
        if (length + (start - index) > w->shown.length || memcmp(w->out + length, t->bytes + index, start - index) != 0) {
            return 0;
        }
        length += start - index;
        index = number < ours->count ? ours->at[number].stop : start;
    }
    return length == w->shown.length;
}

/* Withholding shows the bytes outside the pieces of both scans, and counts and lists these; finding gives the same list. */
static int judge_withholding(const text *t, size_t *count) {
    static withheld w;
    withhold(t, &w);
    *count = w.ours.count;
    if (w.ours.refused || w.shown.refusal != 0 || w.found.refusal != 0 || w.shown.length > t->length) {
        return UNKNOWN;
    }
    int counted = w.shown.pieces == w.ours.count && w.found.count == w.ours.count;
    int listed = counted && lists(w.shown_spans, &w.ours) && lists(w.found_spans, &w.ours);
    return listed && shows_rest(t, &w) ? AGREES : UNKNOWN;
}

/* The verdict on a sample. Sets how many pieces the library finds. */
static int judge(int kind, const sample *s, size_t *count) {
    if (kind == WITHHOLDING) {
        return judge_withholding(&s->markdown, count);
    }
    pieces ours;
    pieces read;
    parsed theirs;
    read_sample(kind, s, LIBRARY, &ours);
    *count = ours.count;
    if (ours.other) {
        return SKIPPED;
    }
    read_sample(kind, s, STANDARD, &read);
    parse_sample(kind, s, &theirs);
    int verdict = UNKNOWN;
    if (!ours.refused) {
        int agrees = agree(&s->markdown, &ours, &theirs);
        int by_rule = same_pieces(&ours, &read);
        verdict = agrees ? (by_rule ? AGREES : SHARED) : by_rule ? explain(kind, s, &ours, &theirs) : UNKNOWN;
    }
    cmark_node_free(theirs.document);
    return verdict;
}

/* ---- Shrinking and showing. */

/* Takes a part out of the text where the verdict stays. */
static int take_out(int kind, int verdict, sample *s, size_t at, size_t length) {
    sample shorter = *s;
    size_t count;
    memmove(shorter.markdown.bytes + at, s->markdown.bytes + at + length, s->markdown.length - at - length);
    shorter.markdown.length -= length;
    if (judge(kind, &shorter, &count) != verdict) {
        return 0;
    }
    *s = shorter;
    return 1;
}

static void shrink(int kind, int verdict, sample *s) {
    size_t part = s->markdown.length;
    while (part > 0) {
        int shorter = 0;
        for (size_t at = 0; at + part <= s->markdown.length;) {
            int out = take_out(kind, verdict, s, at, part);
            shorter = shorter || out;
            at += out ? 0 : 1;
        }
        part = shorter ? s->markdown.length : part - 1;
    }
    for (size_t number = 0; number <= ROOM; number++) {
        sample plainer = *s;
        size_t count;
        plainer.lazy[number] = 0;
        if (judge(kind, &plainer, &count) == verdict) {
            *s = plainer;
        }
    }
}

/* The bytes between backticks, control characters as C writes them. */
static void show(const uint8_t *bytes, size_t length) {
    static const char controls[] = "\t\n\v\f\r";
    static const char letters[] = "tnvfr";
    putchar('`');
    for (size_t i = 0; i < length; i++) {
        const char *control = bytes[i] == '\0' ? NULL : strchr(controls, bytes[i]);
        if (control == NULL) {
            putchar(bytes[i]);
        } else {
            printf("\\%c", letters[control - controls]);
        }
    }
    putchar('`');
}

static void show_piece(const text *t, const pieces *found, size_t number) {
    if (number < found->count) {
        const piece *p = &found->at[number];
        printf(p->is_block ? "block " : "inline ");
        show(t->bytes + p->start, p->stop - p->start);
    } else {
        printf(found->refused ? "a refusal, or a stop or carry that cannot be" : "none");
    }
}

static void show_parsed(const parsed *theirs, size_t number) {
    if (number < theirs->count) {
        printf(theirs->at[number].is_block ? "block " : "inline ");
        show((const uint8_t *)theirs->at[number].literal, strlen(theirs->at[number].literal));
    } else {
        printf("none");
    }
}

/* The first piece in which the library differs from libcmark, or from the rules. */
static void show_difference(int kind, const sample *s) {
    const text *t = &s->markdown;
    pieces ours;
    pieces read;
    parsed theirs;
    read_sample(kind, s, LIBRARY, &ours);
    read_sample(kind, s, STANDARD, &read);
    parse_sample(kind, s, &theirs);
    size_t number = 0;
    while (number < ours.count && same_as_parsed(t, &ours, &theirs, number) && same_piece(&ours, &read, number)) {
        number++;
    }
    printf(": the library has ");
    show_piece(t, &ours, number);
    if (!same_piece(&ours, &read, number)) {
        printf(", the rules ");
        show_piece(t, &read, number);
    }
    printf(", libcmark ");
    show_parsed(&theirs, number);
    cmark_node_free(theirs.document);
}

static void show_list(const uint32_t *spans, size_t count) {
    for (size_t i = 0; i < SPAN * count; i++) {
        printf(" %" PRIu32, spans[i]);
    }
}

/* What withholding and finding give, and the pieces that the scans find. */
static void show_withheld(const text *t) {
    static withheld w;
    withhold(t, &w);
    printf(": refusal %d, %zu pieces", w.shown.refusal, w.shown.pieces);
    show_list(w.shown_spans, w.shown.pieces < PIECES ? w.shown.pieces : PIECES);
    printf(", shown ");
    show(w.out, w.shown.length < t->length ? w.shown.length : t->length);
    printf("; found: refusal %d, %zu pieces", w.found.refusal, w.found.count);
    show_list(w.found_spans, w.found.count < PIECES ? w.found.count : PIECES);
    printf("; the scans have %zu", w.ours.count);
    for (size_t number = 0; number < w.ours.count; number++) {
        putchar(' ');
        show_piece(t, &w.ours, number);
    }
}

static void show_sample(int kind, const sample *s) {
    const text *t = &s->markdown;
    show(t->bytes, t->length);
    if (kind == LAZY_LINES) {
        printf(" with flags");
        for (size_t number = 0; number < line_count(t); number++) {
            printf(" %d", s->lazy[number]);
        }
    }
    if (kind == WITHHOLDING) {
        show_withheld(t);
    } else {
        show_difference(kind, s);
    }
    putchar('\n');
}

/* ---- The run. */

/* The numbers of a kind, and for each verdict a sample with the shortest text. */
typedef struct {
    size_t pieces;
    size_t count[VERDICTS];
    sample shortest[VERDICTS];
} tally;

static void compare(int kind, size_t samples, tally *all) {
    memset(all, 0, sizeof *all);
    for (size_t i = 0; i < samples; i++) {
        sample s;
        size_t count;
        make_sample(kind, &s);
        int verdict = judge(kind, &s, &count);
        all->pieces += verdict == SKIPPED ? 0 : count;
        if (all->count[verdict] == 0 || s.markdown.length < all->shortest[verdict].markdown.length) {
            all->shortest[verdict] = s;
        }
        all->count[verdict]++;
    }
}

static const char *verdict_name(int verdict) {
    if (verdict < SEVERAL) {
        return classes[verdict].name;
    }
    return verdict == SEVERAL ? "several of the classes at once" : verdict == UNKNOWN ? "OF NO KNOWN CLASS" : "AS LIBCMARK BUT NOT BY THE RULES";
}

/* Whether all differences are of known classes. */
static int report(int kind, tally *all) {
    size_t known = 0;
    size_t others = all->count[UNKNOWN] + all->count[SHARED];
    for (int verdict = 0; verdict <= SEVERAL; verdict++) {
        known += all->count[verdict];
    }
    printf("%s: %zu compared, %zu skipped, %zu pieces, %zu differences of known classes, %zu others\n", kind_names[kind], all->count[AGREES] + known + others,
           all->count[SKIPPED], all->pieces, known, others);
    for (int verdict = 0; verdict <= SHARED; verdict++) {
        if (all->count[verdict] > 0) {
            shrink(kind, verdict, &all->shortest[verdict]);
            printf("    %zu %s; as in ", all->count[verdict], verdict_name(verdict));
            show_sample(kind, &all->shortest[verdict]);
        }
    }
    return others == 0;
}

/* Finds out which departures this libcmark has. */
static void find_departures(void) {
    size_t count = 0;
    for (size_t class = 0; class < CLASSES; class++) {
        sample s = {0};
        pieces read;
        parsed theirs;
        add(&s.markdown, classes[class].markdown);
        read_sample(classes[class].kind, &s, STANDARD, &read);
        parse_sample(classes[class].kind, &s, &theirs);
        if (!agree(&s.markdown, &read, &theirs)) {
            departures |= 1U << class;
            count++;
        }
        cmark_node_free(theirs.document);
    }
    printf("libcmark %s has %zu of %zu known departures\n", cmark_version_string(), count, CLASSES);
}

/* The number that an option has behind it. */
static int read_number(const char *option, const char *s, uint64_t *number) {
    char *end;
    *number = strtoull(s, &end, 10);
    if (end == s || *end != '\0' || *s == '-') {
        printf("%s takes a number\n", option);
        return 0;
    }
    return 1;
}

int main(int count, char **arguments) {
    static tally all;
    uint64_t seed = SEED;
    uint64_t samples = SAMPLES;
    int failed = 0;
    for (int i = 1; i < count; i++) {
        uint64_t *number = strcmp(arguments[i], "--seed") == 0 ? &seed : strcmp(arguments[i], "--count") == 0 ? &samples : NULL;
        if (number == NULL || i + 1 == count || !read_number(arguments[i], arguments[i + 1], number)) {
            printf("usage: cmark [--seed N] [--count N]\n0 passed, 1 failed\n");
            return 1;
        }
        i++;
    }
    state = seed;
    find_departures();
    for (int kind = 0; kind < KINDS; kind++) {
        compare(kind, (size_t)samples, &all);
        failed += !report(kind, &all);
    }
    printf("%d passed, %d failed\n", KINDS - failed, failed);
    return failed != 0;
}
