/*
 * The tag filter, by its rule. tests/interface.sh builds and runs it. A line for each check that fails; the last line is 'N passed, M failed'.
 */
#include <ctype.h>
#include <strings.h>

#include "bulletins.h"

/* The filter's buffer: what the longest bulletin becomes at most, and some bytes past that. */
enum { MOST = LIMIT / 5 * 8, PAST = 8 };
static uint8_t wide[MOST + 2 * PAST];

/* Whether the filter, with so much room, shows what it should, or is refused by 7 where that is longer; the bytes behind stay as they are. */
static int filters_in(const screen_case *row, size_t room) {
    int fits = row->shown_length <= room;
    size_t length = fits ? row->shown_length : 0;
    memset(wide, FILL, room + PAST);
    foringamo_written r = foringamo_filter(row->bulletin, row->length, row->flags, row->lines, wide, room);
    return is_written(r, fits ? 0 : 7, length) && memcmp(wide, row->shown, length) == 0 && kept(wide + length, room + PAST - length);
}

/* The same with the room that always suffices, with as much as is needed, and with one byte less. */
static int filters(const screen_case *row) {
    size_t enough = row->length * 8 / 5;
    return row->shown_length <= enough && filters_in(row, enough) && filters_in(row, row->shown_length) &&
           (row->shown_length == 0 || filters_in(row, row->shown_length - 1));
}

static int becomes(const char *bulletin, const char *shown) {
    screen_case row = case_of(bulletin, shown);
    return filters(&row);
}

static int stays(const char *bulletin) {
    return becomes(bulletin, bulletin);
}

static void filter(void) {
    REFUSES_WRITTEN(1, foringamo_filter(big, LIMIT + 1, zeros, 1, out, ROOM));
    REFUSES_WRITTEN(1, foringamo_filter(big, LIMIT + 1, wrong, 2, out, 0));
    REFUSES_WRITTEN(2, foringamo_filter(TEXT("a\nb"), zeros, 3, out, ROOM));
    REFUSES_WRITTEN(2, foringamo_filter(TEXT("a"), wrong, 2, out, 0));
    REFUSES_WRITTEN(2, foringamo_filter(NOWHERE, 0, NOWHERE, 0, out, ROOM));
    REFUSES_WRITTEN(3, foringamo_filter(TEXT("a\nb"), wrong, 2, out, ROOM));
    REFUSES_WRITTEN(3, foringamo_filter(TEXT("a\nb"), wrong, 2, out, 0));
    REFUSES_WRITTEN(7, foringamo_filter(TEXT("a"), zeros, 1, NOWHERE, 0));
    REFUSES_WRITTEN(7, foringamo_filter(TEXT("<xmp>"), zeros, 1, out, 7));
    REFUSES_WRITTEN(7, foringamo_filter(big, LIMIT, zeros, 1, out, ROOM));

    /* The example of the GitHub Flavored Markdown Spec, in every room. */
    screen_case row = case_of("<strong> <title> <style> <em>\n\n<blockquote>\n  <xmp> is disallowed.  <XMP> is also disallowed.\n</blockquote>\n",
                              "<strong> &lt;title> &lt;style> <em>\n\n<blockquote>\n  &lt;xmp> is disallowed.  &lt;XMP> is also disallowed.\n</blockquote>\n");
    for (size_t room = 0; room <= row.length * 8 / 5 + PAST; room++) {
        CHECK(filters_in(&row, room));
    }

    fill();
    CHECK(is_written(foringamo_filter(NOWHERE, 0, zeros, 1, out, ROOM), 0, 0) && kept_from(0));
    CHECK(is_written(foringamo_filter(NOWHERE, 0, zeros, 1, NOWHERE, 0), 0, 0));
}

enum { DISALLOWED_NAMES = 9 };

static const char *const disallowed_names[] = {"title", "textarea", "style", "xmp", "iframe", "noembed", "noframes", "script", "plaintext"};

/* Whether the `<` at an index of a text, and nothing else, becomes `&lt;`; or nothing at all does. */
static int counts_at(int counts, const char *text, size_t length, size_t index) {
    uint8_t shown[64];
    size_t more = counts ? 3 : 0;
    memcpy(shown, text, index);
    memcpy(shown + index, counts ? "&lt;" : "<", 1 + more);
    memcpy(shown + index + 1 + more, text + index + 1, length - index - 1);
    screen_case row = {(const uint8_t *)text, length, zeros, foringamo_count_lines((const uint8_t *)text, length), shown, length + more};
    return filters(&row);
}

/* The same of `<` and a name, with the bytes in front of them and behind. */
static int is_tag(int counts, const char *front, const char *name, const char *behind) {
    char text[48];
    int length = snprintf(text, sizeof text, "%s<%s%s", front, name, behind);
    return counts_at(counts, text, (size_t)length, strlen(front));
}

/* What makes a name count: in a block, and as a part of an opening or a closing tag. */
typedef struct {
    const char *in_block;
    const char *in_opening;
    const char *in_closing; /* NULL: there is no such tag */
} behind_row;

static const behind_row behind_rows[] = {
    {" ", " >", " >"},
    {"\t", "\t>", "\t>"},
    {"\n", "\n>", "\n>"},
    {"\r", "\r>", "\r>"},
    {"\r\n", "\r\n>", "\r\n>"},
    {">", ">", ">"},
    {"/>", "/>", NULL},
};

/* What does not. The last is the bulletin's end. */
static const char *const others[] = {"/ >", "/x>", "/\n>", "/", "x>", "->", "1>", "<b>", "\">", "=>", ""};

/* A name as it is written, behind `/` or not: whether it counts by what is behind it, in blocks and as an inline piece. */
static int by_what_is_behind(const char *name) {
    int good = 1;
    for (size_t i = 0; i < sizeof behind_rows / sizeof *behind_rows; i++) {
        const behind_row *row = &behind_rows[i];
        const char *piece = name[0] == '/' ? row->in_closing : row->in_opening;
        good &= is_tag(1, "<div>", name, row->in_block) && is_tag(1, "<p>\n", name, row->in_block) && is_tag(1, "<!--", name, row->in_block);
        good &= piece == NULL || (is_tag(1, "a ", name, piece) && is_tag(1, "a\n<b>", name, piece));
    }
    for (size_t i = 0; i < sizeof others / sizeof *others; i++) {
        good &= is_tag(0, "<div>", name, others[i]) && is_tag(0, "<!--", name, others[i]) && is_tag(0, "a ", name, others[i]);
    }
    return good;
}

/* Each name in small letters, in capitals and in both, opening and closing. */
static void filter_names(void) {
    for (int place = 0; place < DISALLOWED_NAMES; place++) {
        for (int letters = 0; letters < 4; letters++) {
            char closing[16];
            snprintf(closing, sizeof closing, "/%s", disallowed_names[place]);
            for (size_t i = 1; closing[i] != 0; i++) {
                if (letters == 1 || (letters == 2 && i % 2 == 0) || (letters == 3 && i % 2 == 1)) {
                    closing[i] = (char)toupper((unsigned char)closing[i]);
                }
            }
            CHECK(by_what_is_behind(closing + 1));
            CHECK(by_what_is_behind(closing));
        }
    }
}

/* Every byte in this place of a name, or right behind it: whether it makes a tag that counts, in a block and as an inline piece. */
static int by_each_byte(const char *name, size_t place) {
    static const char *const fronts[] = {"<div>", "a "};
    int good = 1;
    for (int byte = 0; byte < 256; byte++) {
        int ends = byte == ' ' || byte == '\t' || byte == '\n' || byte == '\r' || byte == '>';
        int counts = name[place] == 0 ? ends : tolower(byte) == name[place];
        for (size_t front = 0; front < sizeof fronts / sizeof *fronts; front++) {
            char text[32];
            size_t index = strlen(fronts[front]);
            int length = snprintf(text, sizeof text, "%s<%s%s", fronts[front], name, name[place] == 0 ? " x>" : ">");
            text[index + 1 + place] = (char)byte;
            good &= counts_at(counts, text, (size_t)length, index);
        }
    }
    return good;
}

static void filter_bytes(void) {
    for (int i = 0; i < DISALLOWED_NAMES; i++) {
        for (size_t place = 0; place <= strlen(disallowed_names[i]); place++) {
            CHECK(by_each_byte(disallowed_names[i], place));
        }
    }
}

/* A letter more or less at either end of each name, bytes between it and its `<`, and the name at the bulletin's end. */
static void filter_near_names(void) {
    for (int i = 0; i < DISALLOWED_NAMES; i++) {
        const char *name = disallowed_names[i];
        size_t length = strlen(name);
        char longer[16], shorter[16], text[80];
        snprintf(longer, sizeof longer, "a%sb", name);
        CHECK(is_tag(0, "<div>", longer + 1, ">") && is_tag(0, "a ", longer + 1, ">"));
        longer[length + 1] = 0;
        CHECK(is_tag(0, "<div>", longer, ">") && is_tag(0, "a ", longer, ">"));
        snprintf(shorter, sizeof shorter, "%s", name);
        shorter[length - 1] = 0;
        CHECK(is_tag(0, "<div>", shorter, ">") && is_tag(0, "a ", shorter, ">"));
        CHECK(is_tag(0, "<div>", name + 1, ">") && is_tag(0, "a ", name + 1, ">"));
        snprintf(text, sizeof text, "<div>< %s> < /%s> </ %s> <//%s> <\n%s>", name, name, name, name, name);
        CHECK(stays(text));
        CHECK(is_tag(0, "", name, "") && is_tag(0, "<div>\r\n", name, "") && is_tag(0, "<div>\n\n", name, ""));
    }
}

/* The rows of README, The tag filter, and of docs/SCOPE.md, GitHub's tag filter, that stand nowhere else here. */
static void filter_rows(void) {
    CHECK(becomes("a <xmp> <b>", "a &lt;xmp> <b>"));
    CHECK(becomes("<div><!-- <SCRIPT> --></div>", "<div><!-- &lt;SCRIPT> --></div>"));
    CHECK(stays("a <!-- <script> -->"));
    CHECK(stays("<script"));
    CHECK(becomes("<strong> <title> <style> <em>", "<strong> &lt;title> &lt;style> <em>"));
    CHECK(becomes("<div><xmp/><xmp/ ></XMP >", "<div>&lt;xmp/><xmp/ >&lt;/XMP >"));
}

/* Where a tag counts. */
static void filter_places(void) {
    /* In a block every place, of an inline piece the first byte. */
    CHECK(becomes("<!-- <xmp> -->", "<!-- &lt;xmp> -->"));
    CHECK(becomes("<!-- <xmp> --> <xmp>", "<!-- &lt;xmp> --> &lt;xmp>"));
    CHECK(becomes("<div title=\"<xmp>\">", "<div title=\"&lt;xmp>\">"));
    CHECK(becomes("<div><<xmp></xmp>", "<div><&lt;xmp>&lt;/xmp>"));
    CHECK(becomes("<script>\n\n</script><Style\r\n<xmp", "&lt;script>\n\n&lt;/script>&lt;Style\r\n<xmp"));
    CHECK(becomes("a <!-- <xmp> --> <xmp>", "a <!-- <xmp> --> &lt;xmp>"));
    CHECK(stays("a <b title=\"<xmp>\"> <?<xmp>?> <!A <xmp> <![CDATA[<xmp>]]>"));
    CHECK(becomes("a <xmp title='<xmp>'>", "a &lt;xmp title='<xmp>'>"));
    CHECK(becomes("a <<xmp></xmp>", "a <&lt;xmp>&lt;/xmp>"));

    /* What is behind the name may stand beyond the stop. */
    CHECK(becomes("<div>\n<iframe\n\nx", "<div>\n&lt;iframe\n\nx"));
    CHECK(becomes("<div>\r\n</IFrame\r\n\r\nx", "<div>\r\n&lt;/IFrame\r\n\r\nx"));
    CHECK(becomes("<iframe\r", "&lt;iframe\r"));
    CHECK(becomes("<!-- --><xmp\nx", "<!-- -->&lt;xmp\nx"));
    CHECK(stays("<div>\n<iframe"));

    /* Outside HTML nothing. */
    CHECK(stays("< xmp> <xmp <b>"));
    CHECK(stays("a <xmp\n\n> &lt;xmp> xmp> <xmp/ > <xmp =>"));
    CHECK(becomes("<div>\n\na <xmp <xmp>\n\n    <xmp>", "<div>\n\na <xmp &lt;xmp>\n\n    &lt;xmp>"));
    CHECK(becomes("<xmp>\n<xmp <xmp\n", "&lt;xmp>\n&lt;xmp &lt;xmp\n"));
}

/* The filter takes its inline pieces as withholding does: docs/SCOPE.md, Backslash before a tag. In a block a backslash means nothing. */
static void filter_backslashes(void) {
    CHECK(stays("a \\<xmp>"));
    CHECK(becomes("a \\\\<xmp>", "a \\\\&lt;xmp>"));
    CHECK(stays("\\\\\\</XMP>"));
    CHECK(becomes("a \\<xmp <xmp>", "a \\<xmp &lt;xmp>"));
    CHECK(becomes("a \\\n<xmp>c", "a \\\n&lt;xmp>c"));
    CHECK(becomes("<div>\\<xmp>", "<div>\\&lt;xmp>"));
    CHECK(becomes("<div>\\\\<xmp>", "<div>\\\\&lt;xmp>"));
}

/* A case with these flags. */
static int becomes_by(const uint8_t *flags, const char *bulletin, const char *shown) {
    screen_case row = case_of(bulletin, shown);
    row.flags = flags;
    return filters(&row);
}

/* A lazy line is in no block before it, and in a line that would interrupt a paragraph a tag is an inline piece. */
static void filter_flags(void) {
    static const uint8_t lazy[] = {0, 1};
    static const uint8_t interrupt[] = {0, 2};
    CHECK(becomes_by(zeros, "<!--\n<xmp <xmp", "<!--\n&lt;xmp <xmp"));
    CHECK(becomes_by(lazy, "<!--\n<xmp <xmp", "<!--\n<xmp <xmp"));
    CHECK(becomes_by(lazy, "<!-- <xmp\n<xmp <xmp", "<!-- &lt;xmp\n<xmp <xmp"));
    CHECK(becomes_by(zeros, "a\n<b title='<xmp>'>", "a\n<b title='&lt;xmp>'>"));
    CHECK(becomes_by(interrupt, "a\n<b title='<xmp>'>", "a\n<b title='<xmp>'>"));
    CHECK(becomes_by(interrupt, "a\n<xmp title='<xmp>'>", "a\n&lt;xmp title='<xmp>'>"));
}

/* The longest bulletin with as many tags as it can have. */
static void filter_longest(void) {
    enum { TAGS = LIMIT / 5 };
    static uint8_t longest[LIMIT], shown[MOST];
    screen_case row = {longest, LIMIT, zeros, 1, shown, MOST};

    /* Inline pieces. */
    CHECK(repeat(longest, "<xmp>", TAGS) == longest + LIMIT);
    CHECK(repeat(shown, "&lt;xmp>", TAGS) == shown + MOST);
    CHECK(filters_in(&row, MOST));
    CHECK(filters_in(&row, MOST + PAST));
    CHECK(filters_in(&row, MOST - 1));
    CHECK(filters_in(&row, LIMIT));
    CHECK(is_written(foringamo_filter(longest, LIMIT, zeros, 1, NOWHERE, 0), 7, 0));

    /* A block of kind 7: a line ending and four letters stand in place of a tag. */
    CHECK(repeat(repeat(repeat(longest, "<xmp>\n", 1), "<xmp>", TAGS - 2), "a", 4) == longest + LIMIT);
    row.shown_length = (size_t)(repeat(repeat(repeat(shown, "&lt;xmp>\n", 1), "&lt;xmp>", TAGS - 2), "a", 4) - shown);
    CHECK(row.shown_length == MOST - 3);
    row.lines = 2;
    CHECK(filters(&row));
}

/* Whether one of the tags begins at an index, with a look at each of them. */
static int is_disallowed(const screen_case *row, size_t index) {
    static const char *const ends[] = {" ", "\t", "\n", "\r", ">", "/>"};
    for (int tag = 0; tag < 2 * DISALLOWED_NAMES; tag++) {
        for (size_t end = 0; end < sizeof ends / sizeof *ends; end++) {
            char bytes[16];
            size_t length = (size_t)snprintf(bytes, sizeof bytes, "<%s%s%s", tag % 2 == 0 ? "" : "/", disallowed_names[tag / 2], ends[end]);
            if (length <= row->length - index && strncasecmp((const char *)row->bulletin + index, bytes, length) == 0) {
                return 1;
            }
        }
    }
    return 0;
}

/* What the filter shows, by its rule, and how much that is. */
static size_t show_by_rule(const screen_case *row, const uint8_t *marks, uint8_t *shown) {
    size_t length = 0;
    for (size_t i = 0; i < row->length; i++) {
        if (marks[i] == COUNTS && row->bulletin[i] == '<' && is_disallowed(row, i)) {
            memcpy(shown + length, "&lt;", 4);
            length += 4;
        } else {
            shown[length++] = row->bulletin[i];
        }
    }
    return length;
}

/* Of pseudo-random bulletins the filter shows what the rule says, over the pieces that the scans find; and these are those of withholding. */
static void filter_by_rule(void) {
    static uint8_t marks[SHORT], shown[4 * SHORT];
    int changed = 0;
    for (int round = 0; round < 5000; round++) {
        screen_case row = random_bulletin();
        mark_pieces(&rust, &row, marks);
        row.shown = shown;
        row.shown_length = show_by_rule(&row, marks, shown);
        changed += row.shown_length != row.length;
        CHECK(withholds(&rust, &row, marks) && filters(&row));
    }
    CHECK(changed > 1000);
}

int main(void) {
    memset(big, 'a', sizeof big);
    filter();
    filter_names();
    filter_bytes();
    filter_near_names();
    filter_rows();
    filter_places();
    filter_backslashes();
    filter_flags();
    filter_longest();
    filter_by_rule();
    return finish();
}
