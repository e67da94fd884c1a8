/*
 * The two readings of the C interface: that of the Rust, and the standard's.
 */
#ifndef READING_H
#define READING_H

#include "foringamo.h"

/* The numbers of a span, and room for the spans of any bulletin: three numbers for each of its bytes, of which there are at most 1,000,000. */
enum { SPAN = 3, MOST_NUMBERS = SPAN * 1000000 };

/* Withholding with a list that always has room. */
static inline foringamo_shown withhold_as_rust(const uint8_t *bulletin, size_t bulletin_len, const uint8_t *flags, size_t flags_len, uint8_t *out, size_t out_len) {
    static uint32_t spans[MOST_NUMBERS];
    return foringamo_withhold(bulletin, bulletin_len, flags, flags_len, spans, MOST_NUMBERS, out, out_len);
}

static inline foringamo_shown withhold_by_standard(const uint8_t *bulletin, size_t bulletin_len, const uint8_t *flags, size_t flags_len, uint8_t *out, size_t out_len) {
    static uint32_t spans[MOST_NUMBERS];
    return foringamo_standard_withhold(bulletin, bulletin_len, flags, flags_len, spans, MOST_NUMBERS, out, out_len);
}

/* The scans of a reading, and finding and withholding by it: with a list that always has room, and with one that is lent. */
typedef struct {
    const char *name;
    foringamo_block (*block_scan)(const uint8_t *bulletin, size_t bulletin_len, const uint8_t *flags, size_t flags_len, size_t index);
    foringamo_inline (*inline_scan)(const uint8_t *text, size_t text_len, size_t index, uint8_t carry);
    foringamo_shown (*withhold)(const uint8_t *bulletin, size_t bulletin_len, const uint8_t *flags, size_t flags_len, uint8_t *out, size_t out_len);
    foringamo_spans (*find)(const uint8_t *bulletin, size_t bulletin_len, const uint8_t *flags, size_t flags_len, uint32_t *spans, size_t spans_len);
    foringamo_shown (*withhold_into)(const uint8_t *bulletin, size_t bulletin_len, const uint8_t *flags, size_t flags_len, uint32_t *spans, size_t spans_len, uint8_t *out, size_t out_len);
} reading;

static const reading rust = {
    "as the Rust reads", foringamo_block_scan, foringamo_inline_scan, withhold_as_rust, foringamo_find, foringamo_withhold,
};

static const reading standard = {
    "by the standard", foringamo_standard_block_scan, foringamo_standard_inline_scan, withhold_by_standard, foringamo_standard_find, foringamo_standard_withhold,
};

#endif
