/*
 * Makes a page of a bulletin: what is shown of it, and in place of each withheld piece a bar that is as long as the piece.
 *
 *     scripts/archive.sh
 *     cc -Iinclude -o target/page examples/preview.c target/staticlib/libforingamo.a
 *     printf 'door <!-- x -->9\n<div>\nold\n\nok' | target/page >target/page.html
 *
 * The page is one file, loads nothing and runs nothing. No byte of a withheld piece is in it, but it tells the length of each: do not show it where a length is
 * private. Each line has the flag 0. tests/preview.sh runs this.
 */
#include <stdint.h>
#include <stdio.h>
#include <string.h>

#include "foringamo.h"

/* The most bytes that the library takes. */
#define LIMIT 1000000

/* The numbers of a span, and what the last of them is for a block. */
enum { START, STOP, KIND, NUMBERS };
enum { BLOCK = 1 };

/* The status of the program. */
enum { DONE = 0, REFUSED = 1, WRONG_ARGUMENTS = 64, NOT_READ_OR_WRITTEN = 74 };

/* One byte above the limit, so that the library sees that there is too much; flags for as many lines as that can have; room for the pieces of any bulletin. */
static uint8_t bulletin[LIMIT + 1];
static uint8_t flags[LIMIT + 2];
static uint32_t spans[LIMIT * NUMBERS];

/* What stands above the numbers. A wide bar has its label in it. Its border shows where backgrounds do not, on paper or with forced colours. */
static const char head[] =
    "<!DOCTYPE html>\n"
    "<html lang=\"en\">\n"
    "<head>\n"
    "<meta charset=\"utf-8\">\n"
    "<meta http-equiv=\"Content-Security-Policy\" content=\"default-src 'none'; style-src 'unsafe-inline'\">\n"
    "<meta name=\"viewport\" content=\"width=device-width, initial-scale=1\">\n"
    "<title>A bulletin without its raw HTML</title>\n"
    "<style>\n"
    ":root { color-scheme: light dark; --paper: #fff; --desk: #f1f1ef; --ink: #1c1c1c; --bar: #b9b9b9; --stripe: #8b8b8b; --edge: #6b6b6b }\n"
    "@media (prefers-color-scheme: dark) {\n"
    "  :root { --paper: #1b1c1e; --desk: #101113; --ink: #e6e6e6; --bar: #5c5f63; --stripe: #3e4044; --edge: #9a9da1 }\n"
    "}\n"
    "body { max-width: 60rem; margin: 1.5rem auto; padding: 0 1rem; background: var(--desk); color: var(--ink); font: 1rem/1.5 sans-serif }\n"
    "p { margin: .4rem 0 }\n"
    "p span { display: inline-block; margin-right: 1rem }\n"
    "pre { margin: 1rem 0; padding: 1rem; background: var(--paper); border: 1px solid var(--edge); border-radius: 4px;\n"
    "  font: 1rem/1.5 monospace; white-space: pre-wrap; overflow-wrap: anywhere; unicode-bidi: plaintext }\n"
    ".bar { display: inline-block; box-sizing: border-box; max-width: 100%; height: 1.25em; overflow: hidden; vertical-align: text-bottom;\n"
    "  background: var(--bar); border: 1px solid var(--edge); border-radius: 2px; container-type: inline-size }\n"
    ".block { background: repeating-linear-gradient(135deg, var(--bar) 0 5px, var(--stripe) 5px 10px); border-style: dashed }\n"
    "p .bar { width: 2.5em; margin-right: .4rem }\n"
    "@container (min-width: 32ch) {\n"
    "  .bar::after { content: attr(title); display: block; width: max-content; padding: 0 .5em; background: var(--bar); font: .8em/1.5 sans-serif }\n"
    "}\n"
    "</style>\n"
    "</head>\n"
    "<body>\n";

static const char legend[] =
    "<p><span><span class=\"bar\"></span>inline piece withheld</span> <span><span class=\"bar block\"></span>block withheld</span> "
    "<span>&#xFFFD; byte that is not text</span></p>\n"
    "<p>A bar is as long as its piece, a column for each byte, but not longer than a line.</p>\n";

static const char help[] =
    "usage: preview [--standard] <bulletin >page.html\n"
    "\n"
    "Writes a page that shows the bulletin, with a bar in place of each piece of raw HTML.\n"
    "\n"
    "  --standard  read to the letter of CommonMark 0.31.2\n"
    "  --help      show this\n"
    "\n"
    "Status: 0, done; 1, refused, and standard error says by which number;\n"
    "64, wrong arguments; 74, standard input or output failed.\n";

/*
 * The characters of more than one byte in UTF-8 (Unicode, table 3-7), less the controls U+0080 to U+009F: the bounds of the first byte, those of the second, and
 * the length.
 */
static const struct {
    uint8_t first, last_first, second, last_second;
    size_t length;
} forms[] = {
    {0xc2, 0xc2, 0xa0, 0xbf, 2}, {0xc3, 0xdf, 0x80, 0xbf, 2}, {0xe0, 0xe0, 0xa0, 0xbf, 3}, {0xe1, 0xec, 0x80, 0xbf, 3}, {0xed, 0xed, 0x80, 0x9f, 3},
    {0xee, 0xef, 0x80, 0xbf, 3}, {0xf0, 0xf0, 0x90, 0xbf, 4}, {0xf1, 0xf3, 0x80, 0xbf, 4}, {0xf4, 0xf4, 0x80, 0x8f, 4},
};

static int is_between(uint8_t byte, uint8_t least, uint8_t most) {
    return least <= byte && byte <= most;
}

/* Whether a byte can be the third or fourth of a character. */
static int is_later(uint8_t byte) {
    return is_between(byte, 0x80, 0xbf);
}

/* Whether what stands behind the first two bytes of a character of some length belongs to it. */
static int goes_on(const uint8_t *text, size_t length) {
    return (length < 3 || is_later(text[2])) && (length < 4 || is_later(text[3]));
}

/* The length of the character that a text begins with; 0 where it is none, or a control. */
static size_t character_length(const uint8_t *text, size_t length) {
    if (text[0] == '\n' || text[0] == '\t' || is_between(text[0], ' ', '~')) {
        return 1;
    }
    for (size_t i = 0; i < sizeof forms / sizeof *forms; i++) {
        if (is_between(text[0], forms[i].first, forms[i].last_first)) {
            size_t needs = forms[i].length;
            return length >= needs && is_between(text[1], forms[i].second, forms[i].last_second) && goes_on(text, needs) ? needs : 0;
        }
    }
    return 0;
}

/* How a page has a byte that could be read as HTML; NULL for any other. */
static const char *escaped(uint8_t byte) {
    switch (byte) {
    case '&':
        return "&amp;";
    case '<':
        return "&lt;";
    case '>':
        return "&gt;";
    case '"':
        return "&quot;";
    case '\'':
        return "&#39;";
    default:
        return NULL;
    }
}

/* Writes the character or line ending that a text begins with, and gives its length; in place of a byte of neither it writes U+FFFD. */
static size_t write_character(const uint8_t *text, size_t length) {
    if (text[0] == '\r') {
        putchar('\n');
        return length > 1 && text[1] == '\n' ? 2 : 1;
    }
    size_t bytes = character_length(text, length);
    if (bytes == 0) {
        fputs("&#xFFFD;", stdout);
        return 1;
    }
    const char *escape = escaped(text[0]);
    if (escape != NULL) {
        fputs(escape, stdout);
    } else {
        fwrite(text, 1, bytes, stdout);
    }
    return bytes;
}

/* Writes a stretch of the bulletin. */
static void write_stretch(foringamo_part stretch) {
    size_t index = 0;
    while (index < stretch.length) {
        index += write_character(bulletin + stretch.start + index, stretch.length - index);
    }
}

/* Writes the bar of a span. */
static void write_bar(const uint32_t *span) {
    int is_block = span[KIND] == BLOCK;
    const char *classes = is_block ? "bar block" : "bar";
    const char *what = is_block ? "block" : "inline piece";
    unsigned long bytes = span[STOP] - span[START];
    printf("<span class=\"%s\" role=\"img\" aria-label=\"%s withheld, %lu bytes\" ", classes, what, bytes);
    printf("title=\"%s withheld, %lu bytes\" style=\"width:%luch\"></span>", what, bytes, bytes);
}

/* Writes the line with the numbers. */
static void write_numbers(size_t length, size_t pieces) {
    size_t withheld = 0, blocks = 0;
    for (const uint32_t *span = spans; span < spans + pieces * NUMBERS; span += NUMBERS) {
        withheld += span[STOP] - span[START];
        blocks += span[KIND] == BLOCK;
    }
    printf("<p>Bytes shown: %zu of %zu. Pieces withheld: %zu (inline: %zu, block: %zu).</p>\n", length - withheld, length, pieces, pieces - blocks, blocks);
}

/*
 * Writes what is shown and the bars. Each stretch stands between two spans, so their ends tell where it is; only the last one is asked for, since
 * foringamo_stretch looks through all spans.
 */
static void write_bulletin(size_t length, size_t pieces) {
    size_t start = 0;
    for (const uint32_t *span = spans; span < spans + pieces * NUMBERS; span += NUMBERS) {
        write_stretch((foringamo_part){start, span[START] - start});
        write_bar(span);
        start = span[STOP];
    }
    write_stretch(foringamo_stretch(bulletin, length, spans, pieces * NUMBERS, pieces));
}

/* A browser drops the line ending behind `<pre>`, so one stands there to be dropped. */
static void write_page(size_t length, size_t pieces) {
    fputs(head, stdout);
    write_numbers(length, pieces);
    fputs(legend, stdout);
    fputs("<pre>\n", stdout);
    write_bulletin(length, pieces);
    fputs("</pre>\n</body>\n</html>\n", stdout);
}

/* Says what has failed. */
static int fails(const char *what, int status) {
    fprintf(stderr, "preview: %s\n", what);
    return status;
}

/* The status where all is written. */
static int finish(void) {
    int failed = ferror(stdout);
    if (fclose(stdout) != 0 || failed) {
        return fails("cannot write standard output", NOT_READ_OR_WRITTEN);
    }
    return DONE;
}

/* Makes the page of standard input. */
static int preview(int standard) {
    size_t length = fread(bulletin, 1, sizeof bulletin, stdin);
    if (ferror(stdin)) {
        return fails("cannot read standard input", NOT_READ_OR_WRITTEN);
    }
    size_t lines = foringamo_count_lines(bulletin, length);
    foringamo_spans found = standard ? foringamo_standard_find(bulletin, length, flags, lines, spans, LIMIT * NUMBERS)
                                     : foringamo_find(bulletin, length, flags, lines, spans, LIMIT * NUMBERS);
    if (found.refusal != 0) {
        fprintf(stderr, "refused %d\n", found.refusal);
        return REFUSED;
    }
    write_page(length, found.count);
    return finish();
}

int main(int argc, char **argv) {
    if (argc < 2) {
        return preview(0);
    }
    if (argc == 2 && strcmp(argv[1], "--standard") == 0) {
        return preview(1);
    }
    if (argc == 2 && strcmp(argv[1], "--help") == 0) {
        fputs(help, stdout);
        return finish();
    }
    return fails("wrong arguments; --help tells more", WRONG_ARGUMENTS);
}
