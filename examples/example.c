/*
 * Counts the lines of a bulletin, withholds from it, finds first and shows afterwards, with bars, scans it for a block and an inline piece, withholds in both readings,
 * filters tags, and traces a scan.
 *
 *     scripts/archive.sh
 *     cc -Iinclude -o target/example examples/example.c target/staticlib/libforingamo.a && target/example
 */
#include <inttypes.h>
#include <stdio.h>
#include <stdlib.h>
#include <string.h>

#include "foringamo.h"

static const char *const raw_names[] = {FORINGAMO_RAW_NAMES};
static const char *const block_names[] = {FORINGAMO_BLOCK_NAMES};

int main(void) {
    const char *source = "door <!-- x -->9\n<div>\nold\n\nok";
    const uint8_t *bulletin = (const uint8_t *)source;
    size_t length = strlen(source);
    /* Room for three numbers a byte always suffices; the length of a list counts numbers. */
    uint32_t spans[3 * 100];
    const size_t spans_len = sizeof spans / sizeof spans[0];
    uint8_t out[100];

    /* A flag for each line, all 0: neither lazy nor interrupt. */
    size_t lines = foringamo_count_lines(bulletin, length);
    uint8_t *flags = calloc(lines, 1);
    if (flags == NULL) {
        return 1;
    }
    printf("%zu lines\n", lines);

    /* The line `<div>` begins at 17. */
    foringamo_shown shown = foringamo_withhold(bulletin, length, flags, lines, spans, spans_len, out, sizeof out);
    foringamo_spans found = foringamo_find(bulletin, length, flags, lines, spans, spans_len);
    foringamo_block block = foringamo_block_scan(bulletin, length, flags, lines, 17);
    free(flags);

    if (shown.refusal != 0) {
        printf("refused %d\n", shown.refusal);
        return 1;
    }
    printf("%zu pieces withheld, %zu bytes shown:\n", shown.pieces, shown.length);
    fwrite(out, 1, shown.length, stdout);
    printf("\n");

    /* The same in two. */
    if (found.refusal != 0) {
        printf("refused %d\n", found.refusal);
        return 1;
    }
    printf("%zu spans found:\n", found.count);
    for (size_t number = 0; number < found.count; number++) {
        const uint32_t *span = spans + 3 * number;
        printf("%s from %" PRIu32 " to %" PRIu32 "\n", span[2] == 1 ? "block" : "inline", span[0], span[1]);
    }
    foringamo_written beside = foringamo_show(bulletin, length, spans, 3 * found.count, out, sizeof out);
    if (beside.refusal != 0) {
        printf("refused %d\n", beside.refusal);
        return 1;
    }
    printf("%zu bytes shown beside them:\n", beside.length);
    fwrite(out, 1, beside.length, stdout);
    printf("\n");

    /* One stretch more than there are spans, each a part of the bulletin. */
    printf("%zu stretches, with a bar between:\n", found.count + 1);
    for (size_t number = 0; number <= found.count; number++) {
        if (number > 0) {
            printf("|");
        }
        foringamo_part stretch = foringamo_stretch(bulletin, length, spans, 3 * found.count, number);
        fwrite(bulletin + stretch.start, 1, stretch.length, stdout);
    }
    printf("\n");

    if (block.refusal != 0) {
        printf("refused %d\n", block.refusal);
        return 1;
    }
    if (block.kind == 0) {
        printf("no block at 17\n");
    } else {
        const char *name = block.kind == 1 ? raw_names[block.name] : block.kind == 6 ? block_names[block.name] : "without a name";
        printf("a block of kind %d, %s, from 17 to %zu, ", block.kind, name, block.stop);
        if (block.closed) {
            printf("its closer at %zu\n", block.closer);
        } else {
            printf("not closed\n");
        }
    }

    /* The comment begins at 5 of the paragraph, whose text has 16 bytes. */
    foringamo_inline piece = foringamo_inline_scan(bulletin, 16, 5, 0);
    if (piece.refusal != 0) {
        printf("refused %d\n", piece.refusal);
        return 1;
    }
    if (piece.found == 0) {
        printf("no piece at 5, carry %d\n", piece.carry);
    } else {
        printf("a piece from 5 to %zu, carry %d\n", piece.stop, piece.carry);
    }

    /* One line, one flag. To the Rust `d/e` is no value of an attribute, so that there is no tag. */
    const uint8_t flag = 0;
    const uint8_t *tag = (const uint8_t *)"a <b c=d/e>";
    shown = foringamo_withhold(tag, 11, &flag, 1, spans, spans_len, out, sizeof out);
    foringamo_shown standard = foringamo_standard_withhold(tag, 11, &flag, 1, spans, spans_len, out, sizeof out);
    if (shown.refusal != 0 || standard.refusal != 0) {
        printf("refused %d, %d\n", shown.refusal, standard.refusal);
        return 1;
    }
    printf("of %s %zu bytes are shown, by the standard %zu\n", (const char *)tag, shown.length, standard.length);

    /* Room for 8/5 of the bytes always suffices. */
    foringamo_written filtered = foringamo_filter((const uint8_t *)"a <xmp> <b>", 11, &flag, 1, out, sizeof out);
    if (filtered.refusal != 0) {
        printf("refused %d\n", filtered.refusal);
        return 1;
    }
    printf("filtered, %zu bytes: %.*s\n", filtered.length, (int)filtered.length, (const char *)out);

    foringamo_trace trace = foringamo_inline_trace((const uint8_t *)"<b>", 3, 0, 0, out, sizeof out);
    if (trace.refusal != 0) {
        printf("refused %d\n", trace.refusal);
        return 1;
    }
    printf("the trace of <b>, %zu bytes:\n", trace.length);
    for (size_t number = 0;; number++) {
        foringamo_record record = foringamo_read_trace(out, trace.length, number);
        if (record.refusal != 0) {
            break; /* 9: there are no more */
        }
        if (record.kind <= 12) {
            printf("%d at line %zu, column %zu, index %zu, vs %d\n", record.kind, record.line, record.column, record.index, record.last);
        } else {
            printf("%d with stop %zu, %s %d\n", record.kind, record.index, record.kind == 13 ? "carry" : "block kind", record.last);
        }
    }
    return 0;
}
