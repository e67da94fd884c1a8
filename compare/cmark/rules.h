/*
 * The rules of CommonMark 0.31.2 for raw HTML (4.6 and 6.6), with any of the departures of libcmark, and for backslash escapes (2.4). Each function that is
 * named after a thing gives where that stops, before a limit, or NONE.
 */
#ifndef RULES_H
#define RULES_H

#include "foringamo.h"
#include "text.h"

/* Flags. */
#define LAZY 1
#define INTERRUPT 2

/* Kinds of blocks. */
enum { NO_BLOCK, RAW, COMMENT, INSTRUCTION, DECLARATION, CDATA, BASIC, COMPLETE };

/* No piece, where a stop is asked for. */
#define NONE 0

/* Where libcmark departs from CommonMark 0.31.2, one bit each: cmark.c tells of each, in the same order. A reading has some of them. */
enum {
    OLD_COMMENTS = 1 << 0,
    INSTRUCTION_PAIRS = 1 << 1,
    CDATA_TRIPLES = 1 << 2,
    CDATA_LETTERS = 1 << 3,
    OLD_DECLARATIONS = 1 << 4,
    CAPITAL_DECLARATIONS = 1 << 5,
    CONTROLS = 1 << 6,
    SOURCE = 1 << 7,
    SEARCH = 1 << 8,
    RAW_COMPLETE = 1 << 9,
    FORM_FEED_BEHIND = 1 << 10,
    AUTOLINKS = 1 << 11
};

static const char *const raw_names[] = {FORINGAMO_RAW_NAMES};

static int is_letter(uint8_t byte) {
    return lower(byte) >= 'a' && lower(byte) <= 'z';
}

static int is_capital(uint8_t byte) {
    return byte >= 'A' && byte <= 'Z';
}

static int is_whitespace(uint8_t byte, unsigned by) {
    return is_blank(byte) || is_ending(byte) || ((by & CONTROLS) && is_control(byte));
}

static size_t past_whitespace(const text *t, size_t index, size_t limit, unsigned by) {
    while (index < limit && is_whitespace(t->bytes[index], by)) {
        index++;
    }
    return index;
}

static int begins(const text *t, size_t index, size_t limit, const char *s) {
    return index <= limit && strlen(s) <= limit - index && memcmp(t->bytes + index, s, strlen(s)) == 0;
}

/* The same in any letter case; the string has small letters. */
static int begins_in_any_case(const text *t, size_t index, size_t limit, const char *s) {
    for (; *s != '\0'; s++, index++) {
        if (index >= limit || lower(t->bytes[index]) != (uint8_t)*s) {
            return 0;
        }
    }
    return 1;
}

/* Behind the first such string. */
static size_t through_first(const text *t, size_t index, size_t limit, const char *s) {
    for (; index < limit; index++) {
        if (begins(t, index, limit, s)) {
            return index + strlen(s);
        }
    }
    return NONE;
}

static size_t past_tag_name(const text *t, size_t index, size_t limit) {
    while (index < limit && (is_letter(t->bytes[index]) || is_digit(t->bytes[index]) || t->bytes[index] == '-')) {
        index++;
    }
    return index;
}

static size_t attribute_name(const text *t, size_t index, size_t limit) {
    if (index >= limit || !(is_letter(t->bytes[index]) || t->bytes[index] == '_' || t->bytes[index] == ':')) {
        return NONE;
    }
    while (index < limit && (is_letter(t->bytes[index]) || is_digit(t->bytes[index]) || strchr("_.:-", t->bytes[index]) != NULL)) {
        index++;
    }
    return index;
}

static size_t attribute_value(const text *t, size_t index, size_t limit, unsigned by) {
    size_t start = index;
    if (index < limit && (t->bytes[index] == '"' || t->bytes[index] == '\'')) {
        return through_first(t, index + 1, limit, t->bytes[index] == '"' ? "\"" : "'");
    }
    while (index < limit && !is_whitespace(t->bytes[index], by) && strchr("\"'=<>`", t->bytes[index]) == NULL) {
        index++;
    }
    return index > start ? index : NONE;
}

/* An attribute's name, and its value where there is one. */
static size_t attribute(const text *t, size_t index, size_t limit, unsigned by) {
    size_t stop = attribute_name(t, index, limit);
    if (stop == NONE) {
        return NONE;
    }
    size_t sign = past_whitespace(t, stop, limit, by);
    return begins(t, sign, limit, "=") ? attribute_value(t, past_whitespace(t, sign + 1, limit, by), limit, by) : stop;
}

static size_t open_tag(const text *t, size_t index, size_t limit, unsigned by) {
    index++;
    if (index >= limit || !is_letter(t->bytes[index])) {
        return NONE;
    }
    index = past_tag_name(t, index, limit);
    for (;;) {
        size_t behind = past_whitespace(t, index, limit, by);
        if (behind == index || attribute_name(t, behind, limit) == NONE) {
            return begins(t, behind, limit, ">") ? behind + strlen(">") : begins(t, behind, limit, "/>") ? behind + strlen("/>") : NONE;
        }
        index = attribute(t, behind, limit, by);
        if (index == NONE) {
            return NONE;
        }
    }
}

static size_t closing_tag(const text *t, size_t index, size_t limit, unsigned by) {
    index += strlen("</");
    if (index >= limit || !is_letter(t->bytes[index])) {
        return NONE;
    }
    index = past_whitespace(t, past_tag_name(t, index, limit), limit, by);
    return begins(t, index, limit, ">") ? index + strlen(">") : NONE;
}

static size_t comment(const text *t, size_t index, size_t limit, unsigned by) {
    size_t body = index + strlen("<!--");
    if (by & OLD_COMMENTS) {
        size_t end = through_first(t, body, limit, "--");
        int starts_badly = begins(t, body, limit, ">") || begins(t, body, limit, "->");
        return !starts_badly && end != NONE && begins(t, end, limit, ">") ? end + strlen(">") : NONE;
    }
    if (begins(t, body, limit, ">")) {
        return body + strlen(">");
    }
    return begins(t, body, limit, "->") ? body + strlen("->") : through_first(t, body, limit, "-->");
}

static size_t instruction(const text *t, size_t index, size_t limit, unsigned by) {
    index += strlen("<?");
    if (by & INSTRUCTION_PAIRS) {
        while (index < limit && !begins(t, index, limit, "?>")) {
            index += t->bytes[index] == '?' ? strlen("? ") : 1;
        }
    }
    return through_first(t, index, limit, "?>");
}

static size_t cdata(const text *t, size_t index, size_t limit, unsigned by) {
    if (!(by & CDATA_LETTERS ? begins_in_any_case(t, index, limit, "<![cdata[") : begins(t, index, limit, "<![CDATA["))) {
        return NONE;
    }
    index += strlen("<![CDATA[");
    if (by & CDATA_TRIPLES) {
        while (index < limit && !begins(t, index, limit, "]]>")) {
            index += begins(t, index, limit, "]]") ? strlen("]] ") : 1;
        }
    }
    return through_first(t, index, limit, "]]>");
}

static size_t declaration(const text *t, size_t index, size_t limit, unsigned by) {
    index += strlen("<!");
    if (index >= limit || !is_letter(t->bytes[index])) {
        return NONE;
    }
    if (by & OLD_DECLARATIONS) {
        size_t name = index;
        while (index < limit && is_capital(t->bytes[index])) {
            index++;
        }
        if (index == name || index == limit || !is_whitespace(t->bytes[index], CONTROLS)) {
            return NONE;
        }
    }
    return through_first(t, index, limit, ">");
}

/* A label of a domain, at most so long: letters, digits and `-`, which is neither first nor last. */
#define MOST_OF_A_LABEL 63

static size_t domain_label(const text *t, size_t index, size_t limit) {
    size_t stop = past_tag_name(t, index, limit);
    if (stop == index || stop - index > MOST_OF_A_LABEL || t->bytes[index] == '-' || t->bytes[stop - 1] == '-') {
        return NONE;
    }
    return stop;
}

/* An autolink of an email address, 6.5. It is no raw HTML, but may look like a comment, an instruction or a declaration. */
static size_t email_autolink(const text *t, size_t index, size_t limit) {
    size_t local = index + strlen("<");
    size_t sign = local;
    while (sign < limit && (is_letter(t->bytes[sign]) || is_digit(t->bytes[sign]) || strchr(".!#$%&'*+/=?^_`{|}~-", t->bytes[sign]) != NULL)) {
        sign++;
    }
    if (sign == local || !begins(t, sign, limit, "@")) {
        return NONE;
    }
    size_t stop = domain_label(t, sign + strlen("@"), limit);
    while (stop != NONE && begins(t, stop, limit, ".")) {
        stop = domain_label(t, stop + strlen("."), limit);
    }
    return stop != NONE && begins(t, stop, limit, ">") ? stop + strlen(">") : NONE;
}

/* A backslash escape, 2.4: of ASCII punctuation. A line ending behind a backslash makes a hard break, which is nothing to raw HTML. */
static size_t escape(const text *t, size_t index, size_t limit) {
    if (!begins(t, index, limit, "\\") || index + 1 == limit) {
        return NONE;
    }
    uint8_t byte = t->bytes[index + 1];
    return byte > ' ' && byte <= '~' && !is_letter(byte) && !is_digit(byte) ? index + strlen("\\<") : NONE;
}

/* Raw HTML, 6.6. */
static size_t inline_by_rule(const text *t, size_t index, size_t limit, unsigned by) {
    if (begins(t, index, limit, "<!--")) {
        return comment(t, index, limit, by);
    }
    if (begins(t, index, limit, "<![")) {
        return cdata(t, index, limit, by);
    }
    if (begins(t, index, limit, "<!")) {
        return declaration(t, index, limit, by);
    }
    if (begins(t, index, limit, "<?")) {
        return instruction(t, index, limit, by);
    }
    return begins(t, index, limit, "</") ? closing_tag(t, index, limit, by) : open_tag(t, index, limit, by);
}

/* Whether one of the names stands between two indices, in any letter case. */
static int is_one_of(const text *t, size_t index, size_t stop, const char *const *names, size_t count) {
    for (size_t i = 0; i < count; i++) {
        if (stop - index == strlen(names[i]) && begins_in_any_case(t, index, stop, names[i])) {
            return 1;
        }
    }
    return 0;
}

static int is_raw_name(const text *t, size_t index, size_t stop) {
    return is_one_of(t, index, stop, raw_names, COUNT_OF(raw_names));
}

static int is_block_name(const text *t, size_t index, size_t stop, unsigned by) {
    static const char *const names[] = {FORINGAMO_BLOCK_NAMES};
    static const char *const source[] = {"source"};
    static const char *const search[] = {"search"};
    if ((by & SOURCE) && is_one_of(t, index, stop, source, COUNT_OF(source))) {
        return 1;
    }
    return is_one_of(t, index, stop, names, COUNT_OF(names)) && !((by & SEARCH) && is_one_of(t, index, stop, search, COUNT_OF(search)));
}

/* What follows the name of kinds 1 and 6. */
static int name_ends(const text *t, size_t index, size_t end, unsigned by) {
    return index == end || t->bytes[index] == '>' || is_whitespace(t->bytes[index], by);
}

static int starts_raw(const text *t, size_t index, size_t end, unsigned by) {
    size_t stop = past_tag_name(t, index + 1, end);
    return is_raw_name(t, index + 1, stop) && name_ends(t, stop, end, by);
}

static int starts_basic(const text *t, size_t index, size_t end, unsigned by) {
    size_t name = index + (begins(t, index, end, "</") ? strlen("</") : strlen("<"));
    size_t stop = past_tag_name(t, name, end);
    return is_block_name(t, name, stop, by) && (name_ends(t, stop, end, by) || begins(t, stop, end, "/>"));
}

static int starts_complete(const text *t, size_t index, size_t end, unsigned by) {
    int closing = begins(t, index, end, "</");
    size_t stop = closing ? closing_tag(t, index, end, by) : open_tag(t, index, end, by);
    if (stop == NONE || (!closing && !(by & RAW_COMPLETE) && is_raw_name(t, index + 1, past_tag_name(t, index + 1, end)))) {
        return 0;
    }
    while (stop < end && (is_blank(t->bytes[stop]) || ((by & FORM_FEED_BEHIND) && t->bytes[stop] == '\f'))) {
        stop++;
    }
    return stop == end;
}

/* The kind of block that a line opens. */
static int kind_of(const text *t, size_t index, size_t end, unsigned flag, unsigned by) {
    size_t first = past_blanks(t, index, end);
    if (indentation(t, index, end) >= TAB_STOP || !begins(t, first, end, "<")) {
        return NO_BLOCK;
    }
    if (starts_raw(t, first, end, by)) {
        return RAW;
    }
    if (begins(t, first, end, "<!--")) {
        return COMMENT;
    }
    if (begins(t, first, end, "<?")) {
        return INSTRUCTION;
    }
    uint8_t letter = byte_at(t, first + strlen("<!"));
    if (begins(t, first, end, "<!") && (by & CAPITAL_DECLARATIONS ? is_capital(letter) : is_letter(letter))) {
        return DECLARATION;
    }
    if (by & CDATA_LETTERS ? begins_in_any_case(t, first, end, "<![cdata[") : begins(t, first, end, "<![CDATA[")) {
        return CDATA;
    }
    if (starts_basic(t, first, end, by)) {
        return BASIC;
    }
    return !(flag & INTERRUPT) && starts_complete(t, first, end, by) ? COMPLETE : NO_BLOCK;
}

/* Whether a line has an end tag of kind 1. */
static int has_raw_end(const text *t, size_t index, size_t end) {
    for (; index < end; index++) {
        size_t name = index + strlen("</");
        size_t stop = past_tag_name(t, name, end);
        if (begins(t, index, end, "</") && is_raw_name(t, name, stop) && begins(t, stop, end, ">")) {
            return 1;
        }
    }
    return 0;
}

static int closes(const text *t, size_t index, size_t end, int kind) {
    static const char *const ends[] = {[COMMENT] = "-->", [INSTRUCTION] = "?>", [DECLARATION] = ">", [CDATA] = "]]>"};
    if (kind == RAW) {
        return has_raw_end(t, index, end);
    }
    return kind < BASIC && through_first(t, index, end, ends[kind]) != NONE;
}

/* HTML blocks, 4.6. */
static size_t block_by_rule(const text *t, const uint8_t *flags, size_t index, unsigned by) {
    size_t number = endings_between(t, 0, index);
    size_t end = line_end(t, index);
    int kind = kind_of(t, index, end, flags[number], by);
    if (kind == NO_BLOCK) {
        return NONE;
    }
    while (!closes(t, index, end, kind) && end < t->length) {
        number++;
        index = next_line(t, end);
        size_t stop = line_end(t, index);
        if ((flags[number] & LAZY) || (kind >= BASIC && past_blanks(t, index, stop) == stop)) {
            break;
        }
        end = stop;
    }
    return end;
}

#endif
