/*
 * Random samples: texts of raw HTML and of what it is mistaken for. They have no backtick, `(`, NUL, or byte beyond ASCII.
 */
#ifndef SAMPLES_H
#define SAMPLES_H

#include "rules.h"

/* What is compared: a text, and which of its lines are lazy. */
typedef struct {
    text markdown;
    uint8_t lazy[ROOM + 1];
} sample;

enum { INLINE_TEXTS, BULLETINS, WITHHOLDING, LAZY_LINES, LAZY_PARAGRAPHS, KINDS };

static const char *const kind_names[KINDS] = {
    "inline texts", "bulletins", "withholding", "lazy lines", "lines behind a quoted paragraph",
};

/* The paragraph before a line without its marker. */
#define QUOTED_PARAGRAPH "p\n"

/* Random numbers: splitmix64, with its constants. */

static uint64_t state;

static size_t below(size_t limit) {
    state += UINT64_C(0x9e3779b97f4a7c15);
    uint64_t mixed = (state ^ (state >> 30)) * UINT64_C(0xbf58476d1ce4e5b9);
    mixed = (mixed ^ (mixed >> 27)) * UINT64_C(0x94d049bb133111eb);
    return (size_t)((mixed ^ (mixed >> 31)) % limit);
}

/* How often something is done: once in so many times. */
enum { HALF = 2, OFTEN = 3, SOMETIMES = 4, SELDOM = 8 };

static int once_in(size_t times) {
    return below(times) == 0;
}

#define ONE(list) ((list)[below(COUNT_OF(list))])

/* How many of something, at most. */
#define MOST_ATTRIBUTES 3
#define MOST_OF_A_BODY 5
#define MOST_CONSTRUCTS 7
#define MOST_ON_A_LINE 2
#define MOST_LINES 8
#define MOST_CHANGES 3
#define MOST_BACKSLASHES 5

static const char *const block_names[] = {FORINGAMO_BLOCK_NAMES, "source", "search", "div", "p"};
static const char *const other_names[] = {"a", "b", "Z", "a-b", "x1", "a-", "h7", "pres", "styl", "divs", "sourced", "searc", "image", "1a", "-a", "a_", ""};

static const char *const spaces[] = {"  ", "\t", "\n", "\n ", " \n", "\n\t", "", "\f", "\v", " \f\n"};
static const char *const attribute_names[] = {"B1", "_", ":", "_c", "e.f", "g-h:i", "1b", "1", "-c", ".d", "b*", "", "\\", "c\\", "\\d"};
static const char *const values[] = {
    "", "='v'", "=\"v\"", "=v", "=''", "=\"\"", "=\"v w\"", "='\"'", "=\"'\"", "='>'", "=\"<b>\"", "='\n'", "=\"/\"",
    "=/", "=/v", "=v/", "=v/w", "=http://v/w", " =v", "= v", " = 'v'", "\n=\nv", "\t=\t\"v\"", "=", " =", "= ", "==v", "=v=w", "=v'", "=v\"w",
    "='v", "=\"v", "='v'w", "=<", "=v<w", "=v;w", "=?", "=!-", "=\f", "=v\fw", "=v\vw", "=\v'v'",
    "='\\'", "=\"\\\"", "='\\\\'", "='\\'v'", "=\"\\\"v\"", "='\\<b>'", "=\"\\>\"", "=\\", "=\\v", "=v\\", "=v\\\\", "=\\\"v\"", "\\=v", "=v\\<w",
};
static const char *const tag_ends[] = {
    ">", ">", ">", ">", "/>", " >", " />", "\n>", "\t/>", "/ >", "//>", "x>", "", "<", "=>", "\f>", "\v/>", "> ", ">\t", ">\f", ">\v",
    "\\>", " \\>", "/\\>", "\\/>", ">\\", ">\\\n",
};

static const char *const comment_starts[] = {
    "<!--", "<!--", "<!--", "<!--a", "<!--a", "<!-- ", "<!-- ", "<!-- ", "<!--\n", "<!--\n", "<!-->", "<!--->", "<!---", "<!----", "<!-",
    "<!--\\", "<!-\\-", "<!\\--", "<\\!--",
};
static const char *const comment_body[] = {
    "a", "a>", "<b>", " ", " ", " ", "-a", "- ", "<", "<!", "</", "!", "?>", "]]>", "\n", "\n", ">", "a->", "-", "--", "-->", "--!>", "<!--",
    "@a>", "\\", "\\\\", "\\<b>", "\\-->", "\\>",
};
static const char *const comment_ends[] = {
    "-->", "-->", "-->", " -->", " -->", " -->", "a-->", "a-->", ">-->", "\n-->", "\n-->", "--->", "---->", "--", "->", "--!>", "",
    "\\-->", "\\\\-->", "-\\->", "--\\>",
};
static const char *const instruction_starts[] = {"<?", "<?", "<?", "<?", "<?php ", "<? ", "< ?", "<?\\", "<\\?"};
static const char *const instruction_body[] = {"?", "?a", "@a>", "??", ">", "a", " ", "<", "<?", "\n", "/", "?>", "\\", "\\\\", "\\<?", "\\?>"};
static const char *const instruction_ends[] = {"?>", "?>", "?>", "?>", " ?>", "a?>", "?\?>", "??\?>", "?", ">", "? >", "", "\\?>", "?\\>"};
static const char *const cdata_starts[] = {
    "<![CDATA[", "<![CDATA[", "<![CDATA[", "<![CDATA[", "<![cdata[", "<![CdATA[", "<![CDATA", "<![CDA", "<![", "<!CDATA[", "<![CDATA[[",
    "<![CDATA[\\", "<![CDATA\\[", "<!\\[CDATA[", "<\\![CDATA[",
};
static const char *const cdata_body[] = {"]", "]", "]]", "]]]", ">", "]>", "a", " ", "<", "[", "\n", "<![CDATA[", "\\", "\\\\", "\\]]>", "\\<![CDATA["};
static const char *const cdata_ends[] = {"]]>", "]]>", "]]>", "]]>", "]]]>", "]]]]>", "]]]]]>", "]>", "]]", ">", "", "\\]]>", "]\\]>", "]]\\>"};
static const char *const declaration_starts[] = {
    "<!A ", "<!Z\n", "<!AZ\t", "<!DOCTYPE ", "<!ELEMENT ", "<!A", "<!a", "<!Z", "<!z ", "<!DOCTYPE", "<!doctype ", "<!1", "<!", "<!_", "<! A", "<!@", "<!{",
    "<!A\\", "<!\\A ", "<\\!A ",
};
static const char *const declaration_body[] = {" ", "\t", "\n", " html", "a", "A", "1", "<", "'", "\"", "-", "@a", ".a", "\f", "\\", "\\\\", "\\<"};
static const char *const declaration_ends[] = {">", ">", ">", ">", " >", "\n>", ">>", "", "\\>", "\\\\>"};

static const char *const words[] = {"a", "b ", " c", "word ", "1", ".", "; ", " ", "&lt;", "&amp", "%", "$", "\n", "\\", "\\\n", "\\\\\n", "\\a", "\\ "};
static const char *const fragments[] = {
    "<", "<", "<", ">", ">", "/>", "</", "<!", "<!-", "--", "-", "?", "?>", "]]>", "]", "[", "=", "'", "\"", "/", "_", ":", "!", "\n", "\n", "\t", " ",
    "<a:b>", "<ab:c>", "<ab:?>", "<a@b.c>", "< a>", "<>", "</>", "</ a>", "<a<b>", "<a></a>", "</pre>", "</SCRIPT>", "</style >", "</textarea", "-->",
    "<?@c>", "<!a@b.c>", "<!--@b>", "</a@b>", "\f", "\v",
    "\\", "\\\\", "\\<", "\\\\<", "\\\\\\<", "\\\\\\\\<", "\\\\\\\\\\<", "\\>", "\\&lt;", "&\\lt;", "\\*", "\\_", "\\[", "\\]", "!\\[", "\\=", "\\#", "\\-",
    "1\\.", "<\\a>", "<a\\>", "<ab:\\>", "<ab:c\\d>", "<a\\@b.c>", "<a@b\\.c>", "\\<ab:c>", "\\<a@b.c>", "\\<?@c>", "\\<!a@b.c>", "<ab:\\><b>", "<a@b.c>\\<b>",
};
static const char *const indentations[] = {" ", "  ", "   ", "   ", "    ", "\t", " \t", "\f"};
static const char *const closers[] = {
    "-->", "--->", "?>", "?\?>", ">", "]]>", "]]]>", "</pre>", "</PRE>", "</script>", "</style>", "</Textarea>", "</pre >", "</pre", "</a>", "</div>",
    "a-->", "a ?>", "a]]>", "\\-->", "\\?>", "\\>", "\\]]>", "\\</pre>", "<\\/pre>", "</pre\\>",
};
static const char changes[] = "<>!-?[]/='\" \t\n\f\vaAbZ1_:.@\\";

/* A name, now and then all or one of it in capitals. */
static void add_name(text *t, const char *name) {
    size_t start = t->length;
    add(t, name);
    size_t chosen = start + below(strlen(name) + 1);
    int all = once_in(SOMETIMES);
    int one = once_in(SOMETIMES);
    for (size_t i = start; i < t->length; i++) {
        if (all || (one && i == chosen)) {
            t->bytes[i] = upper(t->bytes[i]);
        }
    }
}

/* Attributes, each plain but for one part. */
static void add_attributes(text *t) {
    for (size_t count = below(MOST_ATTRIBUTES + 1); count > 0; count--) {
        enum { SPACES, NAME, VALUE, PARTS };
        size_t part = below(PARTS);
        add(t, part == SPACES ? ONE(spaces) : " ");
        add(t, part == NAME ? ONE(attribute_names) : "b");
        add(t, part == VALUE ? ONE(values) : "");
    }
}

static void tag_named(text *t, const char *name) {
    add(t, once_in(OFTEN) ? "</" : "<");
    add_name(t, name);
    if (once_in(HALF)) {
        add_attributes(t);
    }
    add(t, ONE(tag_ends));
}

static void tag(text *t) {
    tag_named(t, ONE(other_names));
}

static void block_tag(text *t) {
    tag_named(t, ONE(block_names));
}

static void raw_tag(text *t) {
    tag_named(t, ONE(raw_names));
}

/* What a comment and its like have between their ends. */
static void add_body(text *t, const char *const *body, size_t choices) {
    for (size_t count = below(MOST_OF_A_BODY + 1); count > 0; count--) {
        add(t, body[below(choices)]);
    }
}

static void comment_like(text *t) {
    add(t, ONE(comment_starts));
    add_body(t, comment_body, COUNT_OF(comment_body));
    add(t, ONE(comment_ends));
}

static void instruction_like(text *t) {
    add(t, ONE(instruction_starts));
    add_body(t, instruction_body, COUNT_OF(instruction_body));
    add(t, ONE(instruction_ends));
}

static void cdata_like(text *t) {
    add(t, ONE(cdata_starts));
    add_body(t, cdata_body, COUNT_OF(cdata_body));
    add(t, ONE(cdata_ends));
}

static void declaration_like(text *t) {
    add(t, ONE(declaration_starts));
    add_body(t, declaration_body, COUNT_OF(declaration_body));
    add(t, ONE(declaration_ends));
}

static void word(text *t) {
    add(t, ONE(words));
}

static void fragment(text *t) {
    add(t, ONE(fragments));
}

static void closer(text *t) {
    add(t, ONE(closers));
}

typedef void maker(text *t);

static maker *const constructs[] = {
    tag, tag, tag, block_tag, raw_tag, comment_like, instruction_like, cdata_like, declaration_like, word, word, word, fragment, fragment,
};

/* What a line begins with. */
static maker *const openings[] = {
    tag, tag, tag, tag, block_tag, block_tag, block_tag, raw_tag, raw_tag, comment_like, instruction_like, cdata_like, declaration_like, word, word, fragment,
    closer, closer,
};

/* A construct, now and then behind backslashes. */
static void add_construct(text *t, maker *const *list, size_t choices) {
    for (size_t count = once_in(SELDOM) ? 1 + below(MOST_BACKSLASHES) : 0; count > 0; count--) {
        add(t, "\\");
    }
    list[below(choices)](t);
}

/* Some bytes deleted, changed, put in or said twice. */
static void change(text *t) {
    for (size_t count = below(MOST_CHANGES + 1); count > 0 && t->length > 0 && t->length < ROOM; count--) {
        enum { DELETE, CHANGE, INSERT, REPEAT, WAYS };
        size_t way = below(WAYS);
        size_t at = below(t->length);
        uint8_t byte = (uint8_t)changes[below(sizeof changes - 1)];
        if (way == DELETE) {
            t->length--;
            memmove(t->bytes + at, t->bytes + at + 1, t->length - at);
        } else if (way == CHANGE) {
            t->bytes[at] = byte;
        } else {
            memmove(t->bytes + at + 1, t->bytes + at, t->length - at);
            t->length++;
            t->bytes[at] = way == INSERT ? byte : t->bytes[at];
        }
    }
}

/* The text without form feed and line tabulation. */
static void leave_out_controls(text *t) {
    for (size_t i = 0; i < t->length; i++) {
        t->bytes[i] = is_control(t->bytes[i]) ? ' ' : t->bytes[i];
    }
}

/* The text with each LF as one line ending or another: most often all LF, else all the same, or any. */
static void choose_endings(text *t) {
    static const char *const endings[] = {"\n", "\r\n", "\r"};
    const text before = *t;
    const char *same = once_in(HALF) ? endings[0] : ONE(endings);
    int any = once_in(SELDOM);
    t->length = 0;
    for (size_t i = 0; i < before.length; i++) {
        if (before.bytes[i] == '\n') {
            add(t, any ? ONE(endings) : same);
        } else {
            add_byte(t, before.bytes[i]);
        }
    }
}

/* Lines, some of them blank, the others most often begun by what may open or close a block. */
static void add_lines(text *t) {
    size_t lines = 1 + below(MOST_LINES);
    for (size_t number = 1; number <= lines; number++) {
        if (!once_in(SELDOM)) {
            add(t, once_in(SOMETIMES) ? ONE(indentations) : "");
            add_construct(t, openings, COUNT_OF(openings));
            for (size_t count = once_in(HALF) ? below(MOST_ON_A_LINE + 1) : 0; count > 0; count--) {
                add_construct(t, constructs, COUNT_OF(constructs));
            }
            add(t, once_in(SELDOM) ? "\\" : "");
        } else if (once_in(SOMETIMES)) {
            add(t, ONE(indentations));
        }
        if (number < lines || once_in(OFTEN)) {
            add(t, "\n");
        }
    }
}

static void make_sample(int kind, sample *s) {
    text *t = &s->markdown;
    memset(s->lazy, 0, sizeof s->lazy);
    t->length = 0;
    if (kind == INLINE_TEXTS) {
        for (size_t count = 1 + below(MOST_CONSTRUCTS); count > 0; count--) {
            add_construct(t, constructs, COUNT_OF(constructs));
        }
    } else {
        add_lines(t);
    }
    if (once_in(SOMETIMES)) {
        change(t);
    }
    if (!once_in(SELDOM)) {
        leave_out_controls(t);
    }
    choose_endings(t);
    if (kind == INLINE_TEXTS) {
        make_paragraph(t);
    } else if (kind == LAZY_LINES) {
        for (size_t number = 1; number <= ROOM; number++) {
            s->lazy[number] = once_in(SOMETIMES) ? LAZY : 0;
        }
    } else if (kind == LAZY_PARAGRAPHS) {
        const text lines = *t;
        t->length = 0;
        add(t, QUOTED_PARAGRAPH);
        for (size_t i = 0; i < lines.length; i++) {
            add_byte(t, lines.bytes[i]);
        }
    }
}

#endif
