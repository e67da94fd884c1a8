/*
 * CommonMark's examples of raw HTML, from the file that the argument names: in both readings, through both scans, as withholding tries them, and through
 * withholding. The head of tests/commonmark.txt tells what an entry says; tests/commonmark.sh builds and runs this.
 * A line for each check that fails, then how many examples were run; the last line is 'N passed, M failed'.
 */
#include <stdio.h>
#include <stdlib.h>
#include <string.h>

#include "reading.h"

/* Bytes of a text, pieces of a text, and bytes of a line of the file, at most. */
#define ROOM 512
#define PIECES 16
#define LINE 1024

/* The numbers of the examples: HTML blocks, Raw HTML. */
#define FIRST_BLOCK 148
#define LAST_BLOCK 191
#define FIRST_INLINE 613
#define LAST_INLINE 632

/* The kind of an inline piece, and of what a refused scan gives. Blocks have 1 to 7. */
#define INLINE 0
#define REFUSED 8

typedef struct {
    size_t length;
    uint8_t bytes[ROOM];
} text;

typedef struct {
    unsigned kind;
    size_t start;
    size_t stop;
    unsigned closed;
} piece;

typedef struct {
    size_t count;
    piece at[PIECES];
} pieces;

/* What is left of a text, and how many pieces are not. */
typedef struct {
    int given;
    size_t count;
    text left;
} rest;

/* The Markdown of an example, or a part of it. */
typedef struct {
    int given;
    text markdown;
    text flags;
    size_t code_start; /* indented code, from one index to the other */
    size_t code_stop;
    pieces raw;
    rest shown;
    rest instead;
} part;

static int passed = 0;
static int failed = 0;

static int number = 0;   /* of the example */
static const char *reads = "as published";
static int in_order = 1; /* no number so far is missing, or there twice */
static int whole = 0;
static int but_code = 0;
static int but_container = 0;
static text html;
static size_t html_read; /* what of the HTML lies behind */
static int html_agrees;
static part now;

static void check(int holds, const char *what) {
    if (holds) {
        passed++;
    } else {
        failed++;
        printf("example %d, %s: %s\n", number, reads, what);
    }
}

static int same(const text *a, const text *b) {
    return a->length == b->length && memcmp(a->bytes, b->bytes, a->length) == 0;
}

static void add(pieces *all, unsigned kind, size_t start, size_t stop, unsigned closed) {
    if (all->count < PIECES) {
        all->at[all->count] = (piece){kind, start, stop, closed};
        all->count++;
    }
}

static int same_pieces(const pieces *a, const pieces *b) {
    int holds = a->count == b->count;
    for (size_t i = 0; holds && i < a->count; i++) {
        const piece *p = &a->at[i];
        const piece *q = &b->at[i];
        holds = p->kind == q->kind && p->start == q->start && p->stop == q->stop && p->closed == q->closed;
    }
    return holds;
}

static void print_pieces(const pieces *all) {
    for (size_t i = 0; i < all->count; i++) {
        const piece *p = &all->at[i];
        if (p->kind == INLINE) {
            printf("    found: inline %zu %zu\n", p->start, p->stop);
        } else if (p->kind == REFUSED) {
            printf("    found: a scan at %zu is refused\n", p->start);
        } else {
            printf("    found: block %u %zu %zu%s\n", p->kind, p->start, p->stop, p->closed ? " closed" : "");
        }
    }
}

/* What is left of a text outside its pieces. */
static text outside(const text *t, const pieces *all) {
    text left = {0};
    size_t at = 0;
    for (size_t i = 0; i <= all->count; i++) {
        size_t end = i < all->count ? all->at[i].start : t->length;
        while (at < end && at < t->length) {
            left.bytes[left.length++] = t->bytes[at++];
        }
        if (i < all->count && at < all->at[i].stop) {
            at = all->at[i].stop;
        }
    }
    return left;
}

/* Where the line ends that has this index. The examples have no CR. */
static size_t line_end(const text *t, size_t index) {
    while (index < t->length && t->bytes[index] != '\n') {
        index++;
    }
    return index;
}

static int is_blank(const text *t, size_t index, size_t end) {
    while (index < end && (t->bytes[index] == ' ' || t->bytes[index] == '\t')) {
        index++;
    }
    return index == end;
}

/* The inline pieces of a paragraph. */
static void paragraph(const reading *by, const text *t, size_t start, size_t stop, pieces *found) {
    size_t i = start;
    while (i < stop) {
        foringamo_inline r = {0};
        if (t->bytes[i] == '<') {
            r = by->inline_scan(t->bytes + start, stop - start, i - start, 0);
        }
        if (r.refusal != 0 || (r.found && start + r.stop <= i)) {
            add(found, REFUSED, i, i, 0);
            return;
        }
        if (r.found) {
            add(found, INLINE, i, start + r.stop, 0);
            i = start + r.stop;
        } else {
            i++;
        }
    }
}

/* The pieces of a part: blocks are tried at each line outside a block, inline pieces at each `<` of a paragraph outside a piece. */
static pieces scan(const reading *by, const part *p) {
    const text *t = &p->markdown;
    pieces found = {0};
    size_t at = 0;
    size_t start = 0; /* of the paragraph that is open, */
    size_t stop = 0;  /* and where its last line ends; equal: none is */
    for (;;) {
        size_t end = line_end(t, at);
        foringamo_block r = by->block_scan(t->bytes, t->length, p->flags.bytes, p->flags.length, at);
        int code = at >= p->code_start && at < p->code_stop;
        if (r.refusal != 0 || (r.kind != 0 && r.stop <= at)) {
            add(&found, REFUSED, at, at, 0);
            return found;
        }
        if (r.kind == 0 && !code && !is_blank(t, at, end)) {
            if (start == stop) {
                start = at;
            }
            stop = end;
        } else {
            paragraph(by, t, start, stop, &found);
            start = stop;
        }
        if (r.kind != 0) {
            add(&found, r.kind, at, r.stop, r.closed);
            end = line_end(t, r.stop);
        }
        if (end >= t->length) {
            break;
        }
        at = end + 1;
    }
    paragraph(by, t, start, stop, &found);
    return found;
}

static int withholds(const reading *by, const part *p, const rest *expected) {
    text out = {0};
    foringamo_shown r = by->withhold(p->markdown.bytes, p->markdown.length, p->flags.bytes, p->flags.length, out.bytes, ROOM);
    out.length = r.length;
    return r.refusal == 0 && r.pieces == expected->count && same(&out, &expected->left);
}

/* The tags of the published HTML that are not raw HTML. */
static const char *const made[] = {
    "<p>", "</p>", "<em>", "</em>", "<pre><code>", "</code></pre>", "<blockquote>", "</blockquote>", "<ul>", "</ul>", "<li>", "</li>",
};

static int begins(const text *t, size_t index, const uint8_t *bytes, size_t length) {
    return length <= t->length - index && memcmp(t->bytes + index, bytes, length) == 0;
}

/* Reads the published HTML on through these bytes, or with none to its end. Before them it has no tags but those made. */
static int publishes(const uint8_t *bytes, size_t length) {
    while (html_read < html.length && !(length > 0 && begins(&html, html_read, bytes, length))) {
        size_t step = html.bytes[html_read] == '<' ? 0 : 1;
        for (size_t i = 0; step == 0 && i < sizeof made / sizeof made[0]; i++) {
            if (begins(&html, html_read, (const uint8_t *)made[i], strlen(made[i]))) {
                step = strlen(made[i]);
            }
        }
        if (step == 0) {
            return 0;
        }
        html_read += step;
    }
    if (length > 0 && html_read == html.length) {
        return 0;
    }
    html_read += length;
    return 1;
}

/* A part in one reading. */
static void run_by(const reading *by) {
    reads = by->name;
    if (now.shown.given) {
        pieces found = scan(by, &now);
        text left = outside(&now.markdown, &found);
        int agrees = same_pieces(&found, &now.raw);
        check(agrees && found.count == now.shown.count && same(&left, &now.shown.left), "the scans find other pieces, or leave other than `shown`");
        if (!agrees) {
            print_pieces(&found);
        }
    }
    if (now.instead.given) {
        check(withholds(by, &now, &now.instead), "withholding gives other than `instead`");
    } else {
        check(now.shown.given && withholds(by, &now, &now.shown), "withholding gives other than `shown`");
    }
}

static void run_part(void) {
    if (!now.given) {
        return;
    }
    for (size_t i = 0; i < now.raw.count; i++) {
        const piece *p = &now.raw.at[i];
        int fits = p->start < p->stop && p->stop <= now.markdown.length;
        html_agrees = html_agrees && fits && publishes(now.markdown.bytes + p->start, p->stop - p->start);
    }
    run_by(&rust);
    run_by(&standard);
    memset(&now, 0, sizeof now);
}

static void run_example(void) {
    run_part();
    reads = "as published";
    if (number != 0) {
        check(html_agrees && publishes(NULL, 0), "the pieces are not the raw HTML of the published HTML");
    }
}

/* The bytes that a text with escapes stands for; 0 where they are too many, or an escape is none. */
static int unescape(const char *s, text *t) {
    t->length = 0;
    for (; *s != '\0'; s++) {
        char c = *s;
        if (c == '\\') {
            s++;
            c = *s == 'n' ? '\n' : *s == 'r' ? '\r' : *s == 't' ? '\t' : *s == '\\' ? '\\' : '\0';
        }
        if (c == '\0' || t->length == ROOM) {
            return 0;
        }
        t->bytes[t->length++] = (uint8_t)c;
    }
    return 1;
}

static int read_flags(const char *s) {
    for (; *s >= '0' && *s <= '3' && now.flags.length < ROOM; s++) {
        now.flags.bytes[now.flags.length++] = (uint8_t)(*s - '0');
    }
    return *s == '\0';
}

static int read_rest(const char *s, rest *r) {
    char *end;
    r->given = 1;
    r->count = strtoul(s, &end, 10);
    return end != s && unescape(*end == ' ' ? end + 1 : end, &r->left);
}

static int read_piece(unsigned kind, const char *s) {
    size_t start, stop;
    int used = 0;
    if (sscanf(s, "%zu %zu%n", &start, &stop, &used) != 2 || now.raw.count == PIECES) {
        return 0;
    }
    int closed = strcmp(s + used, " closed") == 0;
    add(&now.raw, kind, start, stop, (unsigned)closed);
    return closed ? kind >= 1 && kind <= 5 : s[used] == '\0';
}

static int read_example(const char *s) {
    int before = number;
    char *section;
    run_example();
    number = (int)strtol(s, &section, 10);
    in_order = in_order && number == (before == 0 ? FIRST_BLOCK : before == LAST_BLOCK ? FIRST_INLINE : before + 1);
    whole++;
    html.length = 0;
    html_read = 0;
    html_agrees = 1;
    return strcmp(section, number <= LAST_BLOCK ? " HTML blocks" : " Raw HTML") == 0;
}

static int read_outside(const char *s) {
    whole--;
    if (strcmp(s, "indented code") == 0) {
        but_code++;
        return 1;
    }
    but_container++;
    return strcmp(s, "container") == 0;
}

/* One line of the file; 0 where it has not the form. */
static int read_line(char *line) {
    char *s = strchr(line, ' ');
    if (s == NULL) {
        return 0;
    }
    *s++ = '\0';
    if (strcmp(line, "example") == 0) {
        return read_example(s);
    }
    if (strcmp(line, "outside") == 0) {
        return read_outside(s);
    }
    if (strcmp(line, "html") == 0) {
        return unescape(s, &html);
    }
    if (strcmp(line, "markdown") == 0 || strcmp(line, "part") == 0) {
        run_part();
        now.given = 1;
        return unescape(s, &now.markdown);
    }
    if (strcmp(line, "flags") == 0) {
        return read_flags(s);
    }
    if (strcmp(line, "code") == 0) {
        return sscanf(s, "%zu %zu", &now.code_start, &now.code_stop) == 2;
    }
    if (strcmp(line, "block") == 0) {
        return s[0] >= '1' && s[0] <= '7' && s[1] == ' ' && read_piece((unsigned)(s[0] - '0'), s + 2);
    }
    if (strcmp(line, "inline") == 0) {
        return read_piece(INLINE, s);
    }
    if (strcmp(line, "shown") == 0) {
        return read_rest(s, &now.shown);
    }
    return strcmp(line, "instead") == 0 && read_rest(s, &now.instead);
}

int main(int count, char **arguments) {
    static char line[LINE];
    FILE *file = count == 2 ? fopen(arguments[1], "rb") : NULL;
    if (file == NULL) {
        printf("the argument is not a file that can be read\n0 passed, 1 failed\n");
        return 1;
    }
    for (int at = 1; fgets(line, LINE, file) != NULL; at++) {
        size_t end = strcspn(line, "\n");
        int ends = line[end] == '\n';
        line[end] = '\0';
        if (!ends || (end > 0 && line[0] != '#' && !read_line(line))) {
            failed++;
            printf("line %d has not the form of an entry\n", at);
        }
    }
    fclose(file);
    run_example();
    check(in_order && number == LAST_INLINE, "is the last; not all are there once and in order");
    printf("%d examples: %d whole, %d but for indented code, %d but for containers\n", whole + but_code + but_container, whole, but_code, but_container);
    printf("%d passed, %d failed\n", passed, failed);
    return failed != 0;
}
