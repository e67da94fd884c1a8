/*
 * One call again and again, for bench/count.sh and bench/place.sh: 'count INPUT' scans or withholds 16,000 bytes 200 times, and writes what the answers add up to;
 * 'count INPUT time' does so 100 times, and writes the least time of a call in microseconds. An input that begins with '=' is a unit, to be withheld again and again.
 * With 'filter:' in front of an input it is filtered, with 'standard:' withheld from by the standard, with 'find:' its spans are found, with 'show:' it is shown
 * beside them, for which they are found once before, and with 'trace:' the trace of its scan is written, which for what is withheld is that of the block at its
 * front. It ends with status 2 where there is no such input, and with 3 where the library has no such function.
 */
#include "foringamo.h"

#include <stdio.h>
#include <string.h>
#include <time.h>

/* So that an archive from before a function can be linked too, and counted beside today's. An archive is one object, and what is in it is found. */
#pragma weak foringamo_filter
#pragma weak foringamo_find
#pragma weak foringamo_show
#pragma weak foringamo_standard_withhold

/* For what is found, filtered or traced, the room that always suffices (include/foringamo.h). */
enum { LENGTH = 16000, SPAN = 3, FOUND = LENGTH * SPAN, FILTERED = LENGTH * 8 / 5, TRACED = LENGTH * 28 + 6, ROUNDS = 200, TIMES = 100, LINE = 73 };

static uint8_t text[LENGTH], flags[LENGTH + 1], out[TRACED];
static size_t lines = 1;

/* The list of spans, and how many numbers of it are beside what is shown. */
static uint32_t spans[FOUND];
static size_t beside;

/* Withholding, of either reading. Before there was foringamo_find it was lent no list. */
typedef foringamo_shown withholding(const uint8_t *, size_t, const uint8_t *, size_t, uint32_t *, size_t, uint8_t *, size_t);
typedef foringamo_shown withholding_before(const uint8_t *, size_t, const uint8_t *, size_t, uint8_t *, size_t);

/* A unit again and again. */
static void repeat(const char *unit)
{
    size_t size = strlen(unit);
    for (size_t i = 0; i < LENGTH; i++)
        text[i] = (uint8_t)unit[i % size];
}

static size_t scans(void)
{
    foringamo_inline answer = foringamo_inline_scan(text, LENGTH, 0, 0);
    return answer.refusal + answer.found + answer.stop;
}

static size_t finds_block(void)
{
    foringamo_block answer = foringamo_block_scan(text, LENGTH, flags, lines, 0);
    return answer.refusal + answer.kind + answer.stop;
}

/* A function is cast by way of one without a type, which says that it is meant. */
static foringamo_shown shown(withholding *withhold)
{
    if (foringamo_find != NULL)
        return withhold(text, LENGTH, flags, lines, spans, FOUND, out, LENGTH);
    return ((withholding_before *)(void (*)(void))withhold)(text, LENGTH, flags, lines, out, LENGTH);
}

static size_t withholds(void)
{
    foringamo_shown answer = shown(foringamo_withhold);
    return answer.refusal + answer.pieces + answer.length;
}

static size_t withholds_by_standard(void)
{
    foringamo_shown answer = shown(foringamo_standard_withhold);
    return answer.refusal + answer.pieces + answer.length;
}

static size_t finds(void)
{
    foringamo_spans answer = foringamo_find(text, LENGTH, flags, lines, spans, FOUND);
    return answer.refusal + answer.count;
}

static size_t shows(void)
{
    foringamo_written answer = foringamo_show(text, LENGTH, spans, beside, out, LENGTH);
    return answer.refusal + answer.length;
}

static size_t filters(void)
{
    foringamo_written answer = foringamo_filter(text, LENGTH, flags, lines, out, FILTERED);
    return answer.refusal + answer.length;
}

/* What the answers of traces add up to is not their length, since an archive may have other records. */
static size_t traces_text(void)
{
    foringamo_trace answer = foringamo_inline_trace(text, LENGTH, 0, 0, out, TRACED);
    return answer.refusal + (answer.length > 0);
}

static size_t traces_block(void)
{
    foringamo_trace answer = foringamo_block_trace(text, LENGTH, flags, lines, 0, out, TRACED);
    return answer.refusal + (answer.length > 0);
}

/* A unit again and again between an opening and a closer, with a line ending at each multiple of `line` where that is not 0. */
static const struct input {
    const char *name, *opening, *unit, *closer;
    size_t line;
    size_t (*call)(void);
} inputs[] = {
    {"comment", "<!--", "x", "-->", 0, scans},
    {"value", "<a b=\"", "x", "\">", 0, scans},
    {"attributes", "<a ", "b=c d ", ">", 0, scans},
    {"prose", "", "the quick brown fox ", "", LINE, withholds},
    {"tags", "", "a <b>x</b> <i>y</i> z\n", "", 0, withholds},
    {"blocks", "", "<td>x</td>\n\n", "", 0, withholds},
    {"late", "", "<ul>\n\n<track>\n\n<title>\n\n", "", 0, withholds},
    {"lines", "", "<b\n", "", 0, withholds},
    {"table", "", "<table>\n<tr><td>4</td><td>open</td></tr>\n<tr><td>5</td><td>shut</td></tr>\n</table>\n\n", "", 0, withholds},
    {"row", "", "Row <tr><td>4</td><td class=\"a\">open</td></tr>\n", "", 0, withholds},
    {"raw", "", "<pre>x</pre>\n", "", 0, withholds},
    {"marks", "", "<?", "", 0, withholds},
    {"xmp", "", "<xmp>", "", 0, withholds},
    {"unclosed", "a <!-- <? <!x <![CDATA[ ", "<", "", 0, withholds},
    {"long", "<div>\n", "the stairs are shut until noon\n", "</div>", 0, finds_block},
    {"remark", "<!--", "the stairs are shut until noon\n", "-->", 0, scans},
    {"endings", "<?", "\n", "", 0, finds_block},
};

/* The input of a name, or of a unit behind '='. Its unit is empty where there is none. */
static struct input named(const char *name)
{
    struct input of_unit = {name, "", *name == '=' ? name + 1 : "", "", 0, withholds};
    for (size_t i = 0; i < sizeof inputs / sizeof *inputs; i++)
        if (!strcmp(name, inputs[i].name))
            return inputs[i];
    return of_unit;
}

static void fill(const struct input *input)
{
    repeat(input->unit);
    memcpy(text, input->opening, strlen(input->opening));
    memcpy(text + LENGTH - strlen(input->closer), input->closer, strlen(input->closer));
    for (size_t i = input->line; i > 0 && i < LENGTH; i += input->line)
        text[i] = '\n';
    for (size_t i = 0; i < LENGTH; i++)
        lines += text[i] == '\n';
}

static size_t rounds(size_t (*call)(void))
{
    size_t sum = 0;
    for (int i = 0; i < ROUNDS; i++)
        sum += call();
    return sum;
}

/* Of so many times the rounds: the least time of a call. */
static double least(size_t (*call)(void))
{
    double best = 0;
    for (int i = 0; i < TIMES; i++) {
        clock_t began = clock();
        volatile size_t sum = rounds(call);
        double took = 1e6 * (double)(clock() - began) / CLOCKS_PER_SEC / ROUNDS;
        (void)sum;
        if (i == 0 || took < best)
            best = took;
    }
    return best;
}

int main(int count, char **words)
{
    const struct {
        const char *front;
        int there;
        size_t (*call)(void);
    } others[] = {
        {"filter:", foringamo_filter != NULL, filters},
        {"standard:", foringamo_standard_withhold != NULL, withholds_by_standard},
        {"find:", foringamo_find != NULL, finds},
        {"show:", foringamo_show != NULL, shows},
        {"trace:", 1, traces_block},
    };
    const char *name = count > 1 ? words[1] : "";
    size_t (*other)(void) = NULL;
    for (size_t i = 0; i < sizeof others / sizeof *others && !other; i++) {
        size_t size = strlen(others[i].front);
        if (strncmp(name, others[i].front, size))
            continue;
        if (!others[i].there)
            return 3;
        name += size;
        other = others[i].call;
    }
    struct input input = named(name);
    if (!*input.unit)
        return 2;
    if (other == traces_block && input.call == scans)
        other = traces_text;
    if (other)
        input.call = other;
    fill(&input);
    if (other == shows)
        beside = SPAN * foringamo_find(text, LENGTH, flags, lines, spans, FOUND).count;
    if (count == 3 && !strcmp(words[2], "time"))
        printf("%.2f\n", least(input.call));
    else
        printf("%zu\n", rounds(input.call));
    return 0;
}
